// The page: one shot of the film at a time, and ways from one to another.

// What a command has come to, and where its step stands among those of it.
function showSaid(shot) {
  const line = byId("step");
  if (!shot.command) {
    line.replaceChildren("Before the first command");
    byId("sentence").textContent = shot.sentence;
    return;
  }
  const steps = film.shots.filter((other) => other.command === shot.command);
  const parts = [`${film.commands[shot.command - 1].number} ${film.commands[shot.command - 1].text}`];
  if (steps.length > 1) {
    const own = shot.step.replace(/^\S+ /, "");
    parts.push(make("span", "part", `  step ${steps.indexOf(shot) + 1} of ${steps.length}: ${own}`));
  }
  const reply = shot.reply === null ? film.commands[shot.command - 1].answer : shot.reply;
  parts.push("  → ", make("span", reply.startsWith("refused") ? "answer refused" : "answer", reply));
  line.replaceChildren(...parts);
  byId("sentence").textContent = shot.sentence;
}

function fit() {
  const room = byId("stage").clientWidth - (window.innerWidth > 900 ? 28 : 20) - 20;
  const wide = window.innerWidth > 900 ? Math.min(26, Math.floor((room - 38) / 2 / ROW)) : Math.floor(room / ROW);
  document.documentElement.style.setProperty("--cell", `${Math.max(17, Math.min(28, wide))}px`);
}

function show(index) {
  now = Math.max(0, Math.min(film.shots.length - 1, index));
  const shot = film.shots[now];
  const state = film.states[shot.state];
  before = now > 0 ? partsOf(film.states[film.shots[now - 1].state]) : new Map();
  after = partsOf(state);
  [ends, joins] = [new Map(), []];
  fit();
  byId("roots").replaceChildren(...state.threads.map((thread, t) => threadCard(state, thread, t)),
    ...(state.globals.length ? [globalsCard(state)] : []), workersCard(state));
  byId("pages").replaceChildren(...state.pages.map((page) => pageCard(state, page)));
  if (!state.pages.length) byId("pages").append(make("div", "note", "No page is in use: all are unused."));
  showRing(state);
  showFrames(state);
  showSaid(shot);
  showLines();
  byId("slide").value = now;
  byId("count").textContent = `step ${now} of ${film.shots.length - 1}`;
  showPlace(shot);
}

function showPlace(shot) {
  for (const item of byId("list").children) {
    const here = Number(item.dataset.command) === (shot.command || 0);
    item.classList.toggle("now", here);
    if (!here) continue;
    const list = byId("list");
    const top = item.offsetTop - list.offsetTop;
    if (top < list.scrollTop || top + item.offsetHeight > list.scrollTop + list.clientHeight) {
      list.scrollTop = top - list.clientHeight / 3;
    }
  }
  history.replaceState(null, "", `#${now}`);
}

function listCommands() {
  const items = [{ number: "", text: "before the first command", answer: "" }, ...film.commands].map((command, c) => {
    const item = make("li");
    const body = make("span", "", command.text);
    body.append(make("span", command.answer.startsWith("refused") ? "answer refused" : "answer", command.answer));
    item.append(make("span", "number", String(command.number)), body);
    item.dataset.command = c;
    item.addEventListener("click", () => go(film.shots.findLastIndex((shot) => (shot.command || 0) === c)));
    return item;
  });
  byId("list").replaceChildren(...items);
}

function stop() {
  clearInterval(timer);
  timer = null;
  byId("play").textContent = "▶ play";
}

function go(index) {
  stop();
  show(index);
}

function play() {
  if (timer !== null) return stop();
  if (now === film.shots.length - 1) show(0);
  byId("play").textContent = "❚❚ stop";
  timer = setInterval(() => (now < film.shots.length - 1 ? show(now + 1) : stop()), 1400);
}

const KEYS = {
  ArrowRight: () => go(now + 1), ArrowLeft: () => go(now - 1), Home: () => go(0),
  End: () => go(film.shots.length - 1), " ": play,
  l: () => { byId("shown").checked = !byId("shown").checked; showLines(); },
};

// Lines that neither begin nor end at the object under the pointer are faint.
function lookAt(place) {
  for (const path of byId("lines").querySelectorAll("[data-ends]")) {
    path.style.opacity = !place || path.dataset.ends.split("|").includes(place) ? "" : "0.1";
  }
}

function begin() {
  listCommands();
  showLegend();
  byId("slide").max = film.shots.length - 1;
  byId("slide").addEventListener("input", (event) => go(Number(event.target.value)));
  byId("first").addEventListener("click", KEYS.Home);
  byId("back").addEventListener("click", KEYS.ArrowLeft);
  byId("on").addEventListener("click", KEYS.ArrowRight);
  byId("last").addEventListener("click", KEYS.End);
  byId("play").addEventListener("click", play);
  byId("shown").addEventListener("change", showLines);
  byId("pages").addEventListener("pointerover", (event) => {
    const box = event.target.closest("[data-place]");
    lookAt(box ? box.dataset.place : null);
  });
  document.addEventListener("keydown", (event) => {
    if (!KEYS[event.key] || event.target.matches?.("input[type=range]") && event.key !== " ") return;
    event.preventDefault();
    KEYS[event.key]();
  });
  window.addEventListener("resize", () => show(now));
  window.addEventListener("hashchange", () => go(Number(location.hash.slice(1)) || 0));
  show(Number(location.hash.slice(1)) || 0);
}

begin();
