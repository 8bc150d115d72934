/* A short order of turns: its pieces as blocks over the lanes, a line at each switch, and the switches in words. */
const BLOCK = 6;            // height of a piece's block, over an interval's bar

function showStory() {
  if (!D.story) return;
  byId("story-card").hidden = false;
  byId("story-order").textContent = D.story.left || D.story.order;
  if (D.story.pieces.length) legendItem(chip("var(--accent)"), "a piece of BOOK's order; a line is a switch");
  D.story.switches.forEach(([head, ...rest], at) => {
    const item = element("li");
    const [hart, , , , end] = D.story.pieces[at];
    item.append(link(head, () => choose(hart, Math.max(0, end - 1))));
    for (const line of rest) item.append(element("div", line));
    byId("story").append(item);
  });
}

/* A piece's two ends on the axis. */
function pieceEnds([hart, , begin, beginRow, end, lastRow]) {
  const first = { hart, count: begin, row: beginRow };
  const last = { hart, count: Math.max(begin, end - 1), row: lastRow };
  return [scale.x(axisValue(first)), scale.x(axisValue(last) + 1)];
}

function drawStory(layer) {
  if (!D.story) return;
  D.story.pieces.forEach((piece, at) => {
    const [from, to] = pieceEnds(piece);
    const y = scale.lane(piece[0]) - BLOCK - 1;
    const lines = D.story.switches[at];
    if (scale.sees(from, to)) {
      const block = shape("rect", { x: from, y, width: Math.max(2, to - from), height: BLOCK, rx: 2, class: "piece" });
      layer.append(titled(block, `hart ${piece[0]}: ${plural(piece[1], "turn")} in a row, the ${at + 1}. of ${D.story.pieces.length}`));
    }
    if (lines && scale.sees(to, to)) drawSwitch(layer, to, piece[0], D.story.pieces[at + 1][0], lines);
  });
}

/* A switch: a line from the lane of the hart that stops to that of the one that continues. */
function drawSwitch(layer, x, hart, other, lines) {
  const line = shape("line", { x1: x, x2: x, y1: scale.lane(hart) - BLOCK / 2 - 1, y2: scale.lane(other) - BLOCK / 2 - 1, class: "switch" });
  layer.append(titled(line, lines.join("\n")));
}
