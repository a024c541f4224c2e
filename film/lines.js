// Lines from references to the places that they name.

// A way along corners, which are rounded.
function rounded(points) {
  let d = `M${points[0].join(" ")}`;
  for (let i = 1; i + 1 < points.length; i += 1) {
    const [before, corner, behind] = [points[i - 1], points[i], points[i + 1]];
    const near = (other) => {
      const long = Math.hypot(other[0] - corner[0], other[1] - corner[1]) || 1;
      const share = Math.min(8, long / 2) / long;
      return [corner[0] + (other[0] - corner[0]) * share, corner[1] + (other[1] - corner[1]) * share].join(" ");
    };
    d += ` L${near(before)} Q${corner.join(" ")} ${near(behind)}`;
  }
  return `${d} L${points[points.length - 1].join(" ")}`;
}

// Where lines may pass between cards, from left to right.
function gutters(cards) {
  const edges = [...new Set(cards.map((card) => Math.round(card.left)))].sort((one, other) => one - other);
  return [...edges.map((edge) => edge - 9), Math.max(...cards.map((card) => card.right)) + 5];
}

// The path of a line, from its element to its end, each in its card: straight on where no other card is between, else
// beside them. The lane parts lines that go the same way.
function pathOf(from, to, home, goal, cards, lane) {
  const [x1, x2] = [(from.left + from.right) / 2, Math.min((to.left + to.right) / 2, to.left + 13)];
  const apart = 6 + (lane % 6) * 4;
  if (home === goal && Math.abs(from.top - to.top) < 12) {
    const low = Math.max(from.bottom, to.bottom) + Math.min(24, 10 + Math.abs(x2 - x1) * 0.08);
    return `M${x1} ${from.bottom - 5} C${x1} ${low} ${x2} ${low} ${x2} ${to.bottom + 1}`;
  }
  if (home !== goal && Math.abs(home.top - goal.top) < 12) {
    const low = Math.max(home.bottom, goal.bottom) + apart;
    return rounded([[x1, from.bottom - 3], [x1, low], [x2, low], [x2, to.bottom + 1]]);
  }
  const down = from.top < to.top;
  const [y1, y2] = down ? [from.bottom - 3, to.top - 1] : [from.top + 3, to.bottom + 1];
  const [out, into] = down ? [home.bottom + apart, goal.top - apart] : [home.top - apart, goal.bottom + apart];
  if (home === goal || !cards.some((card) => card.top > Math.min(out, into) && card.bottom < Math.max(out, into))) {
    const bend = Math.max(18, Math.abs(y2 - y1) * 0.5) * (down ? 1 : -1);
    return `M${x1} ${y1} C${x1} ${y1 + bend} ${x2} ${y2 - bend} ${x2} ${y2}`;
  }
  const far = (x) => Math.abs(x - x1) + Math.abs(x - x2);
  const beside = gutters(cards).sort((one, other) => far(one) - far(other))[0] + (lane % 4) * 2;
  return rounded([[x1, y1], [x1, out], [beside, out], [beside, into], [x2, into], [x2, y2]]);
}

function showLines() {
  const svg = byId("lines");
  const board = byId("board").getBoundingClientRect();
  const placed = (element) => {
    const box = element.getBoundingClientRect();
    return { left: box.left - board.left, right: box.right - board.left, top: box.top - board.top,
      bottom: box.bottom - board.top };
  };
  const tips = Object.entries(LINES).map(([kind, line]) => {
    const tip = draw("marker", { id: `tip-${kind}`, viewBox: "0 0 8 8", refX: 7, refY: 4, markerWidth: 8,
      markerHeight: 8, markerUnits: "userSpaceOnUse", orient: "auto" });
    tip.append(draw("path", { d: "M0 0 L8 4 L0 8 z", fill: line.colour }));
    return tip;
  });
  const boxes = new Map([...document.querySelectorAll(".page, #roots")].map((card) => [card, placed(card)]));
  const cards = [...boxes].filter(([card]) => card.id !== "roots").map(([, box]) => box);
  const cardOf = (element) => boxes.get(element.closest(".page, #roots"));
  const paths = [];
  let lane = 0;
  for (const { element, to, kind, from } of byId("shown").checked ? joins : []) {
    const end = ends.get(to);
    if (!end) continue;
    const d = pathOf(placed(element), placed(end), cardOf(element), cardOf(end), cards, lane);
    lane += 1;
    const line = LINES[kind];
    const marks = { d, fill: "none", "data-ends": `${from}|${to}` };
    paths.push(draw("path", { ...marks, stroke: "#fff", "stroke-width": 4, opacity: 0.7 }));
    paths.push(draw("path", { ...marks, stroke: line.colour, "stroke-width": 1.7, opacity: 0.85,
      "stroke-dasharray": line.dash || "none", "marker-end": `url(#tip-${kind})` }));
  }
  svg.replaceChildren(...tips, ...paths);
}
