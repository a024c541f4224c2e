// What stands beside the heap: the phase, the frames, and what the colours mean.

function showRing(state) {
  const ring = byId("ring");
  const spot = (i) => [125 + 78 * Math.sin((i * 2 * Math.PI) / 5), 96 - 66 * Math.cos((i * 2 * Math.PI) / 5)];
  const arrow = (from, to, bend) => {
    const [[x1, y1], [x2, y2]] = [spot(from), spot(to)];
    const [middle, high] = [(x1 + x2) / 2, (y1 + y2) / 2];
    const [dx, dy] = [(middle - 125) * bend, (high - 96) * bend];
    const long = Math.hypot(x2 - x1, y2 - y1);
    const [ux, uy] = [((x2 - x1) / long) * 13, ((y2 - y1) / long) * 13];
    const d = `M${x1 + ux} ${y1 + uy} Q${middle + dx} ${high + dy} ${x2 - ux} ${y2 - uy}`;
    return draw("path", { d, fill: "none", stroke: "#8ea0b0", "stroke-width": 1.5, "marker-end": "url(#tip)" });
  };
  const tip = draw("marker", { id: "tip", viewBox: "0 0 8 8", refX: 7, refY: 4, markerWidth: 7, markerHeight: 7,
    orient: "auto" });
  tip.append(draw("path", { d: "M0 0 L8 4 L0 8 z", fill: "#8ea0b0" }));
  ring.replaceChildren(tip, ...PHASES.map((_, i) => arrow(i, (i + 1) % 5, 0.25)), arrow(0, 3, 0.7));
  PHASES.forEach((phase, i) => {
    const [x, y] = spot(i);
    const here = state.phase === phase;
    ring.append(draw("circle", { cx: x, cy: y, r: here ? 10 : 7, fill: here ? PHASE_SHADES[i] : "#fff",
      stroke: PHASE_SHADES[i], "stroke-width": 2.5 }));
    const side = { 1: { x: 250, anchor: "end" }, 4: { x: 0, anchor: "start" } }[i] || { x, anchor: "middle" };
    const label = draw("text", { x: side.x, y: i === 0 ? y - 16 : y + 24, "text-anchor": side.anchor }, phase);
    if (here) label.setAttribute("style", "font-weight: 700");
    ring.append(label);
  });
  ring.append(draw("text", { x: 127, y: 84, "text-anchor": "middle" }, "NMT value"),
    draw("text", { x: 127, y: 108, "text-anchor": "middle", style: "font-size: 22px; font-weight: 700" }, state.nmt),
    draw("text", { x: 127, y: 124, "text-anchor": "middle" }, `births ${state.births}`));
  ring.setAttribute("aria-label", `phase ${state.phase}, NMT value ${state.nmt}`);
}

function showFrames(state) {
  const owners = new Map(state.pages.filter((page) => page.frame !== null).map((page) => [page.frame, page]));
  const boxes = [];
  for (let f = 0; f < Math.min(state.frames, 64); f += 1) {
    const page = owners.get(f);
    const box = make("span", page ? page.state : "free", `${f}: ${page ? `page ${page.number}` : "free"}`);
    box.title = page ? `frame ${f}: page ${page.number}` : `frame ${f} is free`;
    boxes.push(box);
  }
  byId("frames").replaceChildren(...boxes, make("div", "note", `${state.used} of ${state.frames} in use`));
}

function legendRow(key, text) {
  const term = make("dt");
  term.append(key);
  return [term, make("dd", "", text)];
}

function key(style, kind = "key") {
  const box = make("span", kind);
  box.style.cssText = style;
  return box;
}

function lineKey(line) {
  const svg = draw("svg", { width: 30, height: 10 });
  const dash = line.dash || "none";
  svg.append(draw("path", { d: "M1 5 H29", stroke: line.colour, "stroke-width": 2, "stroke-dasharray": dash }));
  return svg;
}

function counted(count, noun, nouns) {
  return `${count} ${count === 1 ? noun : nouns}`;
}

function showLegend() {
  const rows = film.layouts.map(([refs, nums], l) => {
    const text = `${counted(refs, "reference", "references")}, ${counted(nums, "datum", "data")}`;
    return legendRow(key(`background: ${SHADES[l % SHADES.length]}`), `layout ${l}: header with the birth, ${text}`);
  });
  const hatch = "background: repeating-linear-gradient(135deg, #f2f4f6 0 4px, #dde3e8 4px 5px); border: 0";
  rows.push(
    legendRow(key("", "dot"), "a reference with NMT bit 0"),
    legendRow(key("background: #23313d", "dot"), "a reference with NMT bit 1"),
    legendRow(key("width: 12px; height: 2px; background: #70808e; border: 0"), "a null reference"),
    legendRow(key("background: var(--live); height: 6px; border: 0"), "live: found by the last mark"),
    legendRow(key("background: var(--mark); height: 6px; border: 0"), "marked by the running mark"),
    legendRow(key("background: var(--todo); height: 6px; border: 0"), "marked, and still to be scanned"),
    legendRow(key("background: #e4e7ea; border-color: #a9b3bc"), "garbage: the last mark hasn't found it"),
    legendRow(key("border: 2px dashed #6b4fb3"), "what is left of a thread's buffer"),
    legendRow(key("border: 1.5px dashed #1d7d46; background: #e1f5e8"), "a place that is planned for a copy"),
    legendRow(key(hatch), "not lent so far"),
    legendRow(key("border: 2px solid #e3a400"), "changed by this step"),
    ...Object.values(LINES).map((line) => legendRow(lineKey(line), line.text)));
  byId("legend").replaceChildren(...rows.flat());
}
