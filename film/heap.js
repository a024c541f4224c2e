// Cards of threads, workers, globals and pages. `film` has the sizes, the layouts, and the shots with their states.

const SHADES = ["#bcd9f2", "#f7d9a8", "#cfe8c6", "#f3c6d3", "#ddcdf0", "#f2eca0", "#c2e4e1", "#e2d5c5"];
const LINES = {
  root: { colour: "#1f5f99", text: "a register or a global names it" },
  field: { colour: "#46535f", text: "a reference of an object" },
  old: { colour: "#c25e00", dash: "6 3", text: "names an old place, on a from or gone page" },
  barrier: { colour: "#7a3fc0", text: "the word in an open barrier" },
  scan: { colour: "#c2410c", dash: "1 3", text: "a worker scans it" },
  forward: { colour: "#1d7d46", text: "a side array: copied to there" },
  plan: { colour: "#1d7d46", dash: "2 4", text: "a side array: planned" },
};
const PHASES = ["idle", "protect-crossing", "relocating", "mark-crossing", "scanning"];
const PHASE_SHADES = ["#8c99a5", "#e39a52", "#c25e00", "#6aa7d8", "#1f5f99"];
const WORDS = film.sizes.words;
const ROW = Math.min(WORDS, 16);
const BARS = WORDS > 128;
const byId = (id) => document.getElementById(id);

let now = 0;
let timer = null;
// Where lines begin and end in the shot that is shown: elements by a place's name, and what is to be joined.
let ends = new Map();
let joins = [];

function make(name, kind, text) {
  const element = document.createElement(name);
  if (kind) element.className = kind;
  if (text !== undefined) element.textContent = text;
  return element;
}

function draw(name, marks, text) {
  const element = document.createElementNS("http://www.w3.org/2000/svg", name);
  for (const [key, value] of Object.entries(marks)) element.setAttribute(key, value);
  if (text !== undefined) element.textContent = text;
  return element;
}

// A word's place and its NMT bit; null of the null word.
function parted(word) {
  if (word === "-") return null;
  const [place, nmt] = word.split("/");
  const [page, offset] = place.split(".").map(Number);
  return { place, nmt, page, offset };
}

function sizeOf(layout) {
  const [refs, nums] = film.layouts[layout];
  return 1 + refs + nums;
}

function pageOf(state, number) {
  return state.pages.find((page) => page.number === number);
}

function isOld(state, word) {
  const found = parted(word);
  const page = found && pageOf(state, found.page);
  return Boolean(page) && (page.state === "from" || page.state === "gone");
}

// What is compared between two states, by a name for each part.
function partsOf(state) {
  const parts = new Map();
  state.threads.forEach((thread, t) => {
    thread.registers.forEach((word, r) => parts.set(`register ${t} ${r}`, word));
    parts.set(`buffer ${t}`, String(thread.buffer));
    parts.set(`load ${t}`, JSON.stringify(thread.load));
    parts.set(`tags ${t}`, `${thread.state} ${thread.crossed}`);
  });
  state.globals.forEach((global, g) => parts.set(`global ${g}`, JSON.stringify(global)));
  state.workers.forEach((scan, k) => parts.set(`worker ${k}`, JSON.stringify(scan)));
  for (const page of state.pages) {
    parts.set(`page ${page.number}`, `${page.state} ${page.frame}`);
    for (const entry of page.entries) parts.set(`entry ${page.number}.${entry.offset}`, JSON.stringify(entry));
    for (const thing of page.objects) {
      const place = `${page.number}.${thing.offset}`;
      parts.set(`head ${place}`, `${thing.birth} ${thing.bits}`);
      [...thing.refs, ...thing.data].forEach((word, i) => parts.set(`word ${place} ${i}`, word));
    }
  }
  return parts;
}

let before = new Map();
let after = new Map();

function mark(element, name) {
  if (now > 0 && before.get(name) !== after.get(name)) element.classList.add("changed");
  return element;
}

// A line is to go from an element to the place of a word.
function join(element, state, word, kind, from) {
  const found = parted(word);
  if (!found) return;
  const old = kind !== "barrier" && isOld(state, word);
  joins.push({ element, to: found.place, kind: old ? "old" : kind, from });
}

function slot(name, word, state, key, kind) {
  const box = make("span", "slot mono");
  box.append(make("b", "", name), word === "-" ? "null" : word);
  if (isOld(state, word)) box.classList.add("old");
  join(box, state, word, kind, key);
  return mark(box, key);
}

function barrier(state, thread, number) {
  const load = thread.load;
  const [kind, where] = load.place.split(" ");
  const [page, offset, index] = where.split(".");
  const place = kind === "global" ? `global ${where}` : `reference ${index} at ${page}.${offset}`;
  const box = make("div", "barrier");
  const text = `barrier: ${load.target} from ${place}, loaded ${load.raw}, now `;
  const word = make("span", "mono", load.now);
  box.append(text, word, load.healed ? ", healed" : "");
  join(word, state, load.now, "barrier", `load ${number}`);
  return mark(box, `load ${number}`);
}

function tag(kind, text) {
  return make("span", `tag ${kind}`, text);
}

function threadCard(state, thread, number) {
  const card = make("div", "card");
  const head = make("h3", "", `thread ${number}`);
  head.append(tag(thread.state, thread.state));
  if (state.phase.endsWith("crossing")) {
    head.append(thread.crossed ? tag("crossed", "crossed") : tag("behind", "not crossed"));
  }
  const buffer = thread.buffer ? `buffer ${thread.buffer[0]}.${thread.buffer[1]}–${thread.buffer[2]}` : "no buffer";
  head.append(mark(tag("", buffer), `buffer ${number}`));
  const slots = make("div", "slots");
  thread.registers.forEach((word, r) => slots.append(slot(`r${r}`, word, state, `register ${number} ${r}`, "root")));
  card.append(mark(head, `tags ${number}`), slots);
  if (thread.load) card.append(barrier(state, thread, number));
  return card;
}

function globalsCard(state) {
  const card = make("div", "card");
  card.append(make("h3", "", "globals"));
  const slots = make("div", "slots");
  state.globals.forEach((global, g) => {
    const box = slot(String(g), global.word, state, `global ${g}`, "root");
    if (global.todo) box.classList.add("todo");
    slots.append(box);
  });
  card.append(slots);
  return card;
}

// What a worker does next with the object that it scans.
function nextOf(state, scan) {
  const { page, offset } = parted(`${scan.object}/0`);
  const thing = pageOf(state, page).objects.find((found) => found.offset === offset);
  return scan.next < thing.refs.length ? `reference ${scan.next} next` : "no reference left";
}

function workersCard(state) {
  const card = make("div", "card");
  card.append(make("h3", "", "workers"));
  const slots = make("div", "slots");
  state.workers.forEach((scan, k) => {
    const box = make("span", "slot mono");
    box.append(make("b", "", `w${k}`), scan ? `scans ${scan.object}, ${nextOf(state, scan)}` : "–");
    if (scan) join(box, state, `${scan.object}/0`, "scan", `worker ${k}`);
    slots.append(mark(box, `worker ${k}`));
  });
  card.append(slots);
  return card;
}

// Parts of a page's words from one offset to another, each within one row of words.
function pieces(from, to) {
  const found = [];
  for (let at = from; at < to; at = (Math.floor(at / ROW) + 1) * ROW) {
    found.push({ row: Math.floor(at / ROW), from: at, to: Math.min(to, (Math.floor(at / ROW) + 1) * ROW) });
  }
  return found;
}

function put(rows, kind, from, to, fill) {
  for (const piece of BARS ? [{ row: 0, from, to }] : pieces(from, to)) {
    const box = make("div", kind);
    const [left, width] = [piece.from - (BARS ? 0 : piece.row * ROW), piece.to - piece.from];
    box.style.left = BARS ? `${(100 * left) / WORDS}%` : `calc(var(--cell) * ${left})`;
    box.style.width = BARS ? `${(100 * width) / WORDS}%` : `calc(var(--cell) * ${width})`;
    if (fill) fill(box, piece);
    rows[piece.row].append(box);
  }
}

function isCopied(page, thing) {
  return page.entries.some((entry) => entry.offset === thing.offset && entry.copied);
}

function isLost(page, thing) {
  return page.state !== "open" && !thing.bits.includes("live");
}

// Whether lines are drawn for the references of an object: it isn't garbage, and isn't left behind.
function keeps(page, thing) {
  return !isCopied(page, thing) && !isLost(page, thing);
}

function bitsOf(thing) {
  const bits = make("span", "bits");
  for (const bit of thing.bits) bits.append(make("i", bit));
  return bits;
}

function headCell(thing, place) {
  const cell = make("span", "word head", String(thing.birth));
  cell.append(bitsOf(thing));
  cell.title = `object #${thing.birth} at ${place}, layout ${thing.layout} ${thing.bits.join(" ")}`;
  ends.set(place, cell);
  return mark(cell, `head ${place}`);
}

function refCell(state, thing, place, index) {
  const word = thing.refs[index];
  const found = parted(word);
  const cell = make("span", `word ref ${found ? `nmt${found.nmt}` : "null"}`, word);
  cell.title = `reference ${index}: ${found ? word : "null"}`;
  if (state.workers.some((scan) => scan && scan.object === place && scan.next === index)) cell.classList.add("next");
  if (keeps(pageOf(state, Number(place.split(".")[0])), thing)) join(cell, state, word, "field", place);
  return mark(cell, `word ${place} ${index}`);
}

function dataCell(thing, place, index) {
  const cell = make("span", "word", thing.data[index]);
  cell.title = `datum ${index}: ${thing.data[index]}`;
  return mark(cell, `word ${place} ${thing.refs.length + index}`);
}

function wordCell(state, thing, place, number) {
  if (number === 0) return headCell(thing, place);
  if (number <= thing.refs.length) return refCell(state, thing, place, number - 1);
  return dataCell(thing, place, number - 1 - thing.refs.length);
}

function putThing(state, rows, page, thing) {
  const place = `${page.number}.${thing.offset}`;
  put(rows, "thing", thing.offset, thing.offset + sizeOf(thing.layout), (box, piece) => {
    box.style.background = SHADES[thing.layout % SHADES.length];
    box.dataset.place = place;
    if (isCopied(page, thing)) box.classList.add("left");
    if (isLost(page, thing)) box.classList.add("lost");
    if (BARS) {
      box.title = `object #${thing.birth} at ${place}, layout ${thing.layout} ${thing.bits.join(" ")}`;
      box.append(bitsOf(thing));
      if (keeps(page, thing)) thing.refs.forEach((word) => join(box, state, word, "field", place));
      if (piece.from === thing.offset) ends.set(place, box);
      return;
    }
    for (let at = piece.from; at < piece.to; at += 1) box.append(wordCell(state, thing, place, at - thing.offset));
  });
}

// The places on a page that are planned for objects that aren't copied yet.
function putPlanned(state, rows, page) {
  for (const source of state.pages) {
    for (const entry of source.entries) {
      const to = parted(`${entry.to}/0`);
      const thing = source.objects.find((found) => found.offset === entry.offset);
      if (entry.copied || to.page !== page.number || !thing) continue;
      put(rows, "thing planned", to.offset, to.offset + sizeOf(thing.layout), (box, piece) => {
        box.textContent = piece.from === to.offset ? `for ${thing.birth}` : "";
        if (piece.from === to.offset) ends.set(entry.to, box);
      });
    }
  }
}

function putBuffers(state, rows, page) {
  state.threads.forEach((thread, t) => {
    if (thread.buffer && thread.buffer[0] === page.number && thread.buffer[1] < thread.buffer[2]) {
      put(rows, "lent", thread.buffer[1], thread.buffer[2], (box) => box.append(`t${t}`));
    }
  });
}

function memoryOf(state, page) {
  const rows = [];
  for (let r = 0; r < (BARS ? 1 : WORDS / ROW); r += 1) rows.push(make("div", BARS ? "bars" : "row"));
  put(rows, "empty", 0, page.top);
  if (!BARS) put(rows, "unlent", page.top, WORDS);
  putBuffers(state, rows, page);
  putPlanned(state, rows, page);
  for (const thing of page.objects) putThing(state, rows, page, thing);
  if (!BARS) {
    for (let at = 0; at < WORDS; at += 4) {
      const label = make("span", "offset", String(at));
      label.style.left = `calc(var(--cell) * ${at % ROW} + 2px)`;
      rows[Math.floor(at / ROW)].append(label);
    }
  }
  return rows;
}

function entriesOf(state, page) {
  const box = make("div", "entries");
  if (page.entries.length) box.append(make("span", "note", "side array:"));
  page.entries.forEach((entry, e) => {
    const place = `${page.number}.${entry.offset}`;
    const chip = make("span", `entry mono${entry.copied ? " copied" : ""}`, `${e}: ${place} → ${entry.to}`);
    chip.title = entry.copied ? "copied" : "planned";
    if (page.state === "gone") ends.set(place, chip);
    joins.push({ element: chip, to: entry.to, kind: entry.copied ? "forward" : "plan", from: place });
    box.append(mark(chip, `entry ${place}`));
  });
  return box;
}

function pageCard(state, page) {
  const card = make("div", `page ${page.state}`);
  const head = make("h3");
  const frame = page.frame === null ? "no frame" : `frame ${page.frame}, top ${page.top}`;
  head.append(make("span", "", `page ${page.number}`), make("span", "state", page.state), make("span", "note", frame));
  card.append(mark(head, `page ${page.number}`));
  if (page.frame !== null) card.append(...memoryOf(state, page));
  card.append(entriesOf(state, page));
  if (!BARS) card.querySelectorAll(".row").forEach((row) => { row.style.width = `calc(var(--cell) * ${ROW} + 1px)`; });
  else card.style.width = "100%";
  return card;
}

