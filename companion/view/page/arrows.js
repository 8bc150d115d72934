/* What the timeline draws between points: Edges, races, and the way from a suspect to the load behind the fault. */

/* Edges in view, one for each 5 pixels and pair of harts. Over the whole run only evenly chosen ones are
   taken, or the end, of which the page has more, would look denser than it was. */
function edgesInView() {
  const [first, last] = wholeAxis();
  const zoomedOut = (state.to - state.from) * 3 > last - first;
  const taken = new Set();
  const found = [];
  for (let i = edges.length - 1; i >= 0; i--) {
    const edge = edges[i];
    if ((!edge.row && !edge.fromRow) || (zoomedOut && !edge.even)) continue;
    const half = !edge.row || !edge.fromRow;
    const to = scale.x(axisValue(edge.row ? edge : { hart: edge.from, count: edge.fromCount, row: edge.fromRow }));
    const from = half ? to : scale.x(axisValue({ hart: edge.from, count: edge.fromCount, row: edge.fromRow }));
    const key = (edge.hart * 16 + edge.from) * 65536 + Math.round(to / 5);
    if (!scale.sees(from, to) || taken.has(key)) continue;
    taken.add(key);
    found.push({ ...edge, half, from: edge.from, x1: from, x2: to });
  }
  return found;
}

/* Draws them and says how many. With one end dropped from the log an Edge is a short dashed stub. */
function drawEdges(layer) {
  const found = edgesInView();
  const step = Math.max(1, Math.ceil(found.length / EDGES_DRAWN));
  const dense = found.length / step > 150;
  const shown = found.filter((_, i) => i % step === 0);
  const head = dense ? "" : "url(#edge-head)";
  for (const edge of shown) {
    const style = `stroke:var(--edge);stroke-width:1;fill:none;opacity:${dense ? 0.55 : 0.85};${edge.half ? "stroke-dasharray:2 2" : ""}`;
    layer.append(titled(
      shape("path", { d: edgePath(edge), style, "marker-end": head }),
      `Edge: hart ${edge.hart} count ${commas(edge.count)} comes after hart ${edge.from} count ${commas(edge.fromCount)}` +
      (edge.half ? " (one end of it was dropped from the log)" : "")));
  }
  return { shown: shown.length, lost: edges.filter((edge) => !edge.row && !edge.fromRow).length };
}

function edgePath({ hart, from, row, half, x1, x2 }) {
  const down = hart > from;
  const y1 = scale.lane(from) + (down ? LANE_BOTTOM - 1 : -1);
  const y2 = scale.lane(hart) + (down ? -1 : LANE_BOTTOM);
  if (!half) return `M${x1.toFixed(1)} ${y1}L${x2.toFixed(1)} ${y2}`;
  return row ? `M${x2 - 10} ${y2 + (down ? -9 : 9)}L${x2} ${y2}` : `M${x2} ${y1}L${x2 + 10} ${y1 + (down ? 9 : -9)}`;
}

/* The chosen group's arcs, or some of the first groups' that no fence explains. By count two harts' places
   say nothing of each other, so there the chosen group alone is drawn. */
function raceArcs() {
  const groups = D.races.map((group, index) => ({ ...group, index }));
  const chosen = groups.filter(({ index }) => index === state.race);
  const open = state.order === "count" ? [] : groups.filter(({ kind }) => !kind).slice(0, RACE_GROUPS_DRAWN);
  const drawn = [];
  for (const group of chosen.length ? chosen : open) {
    const most = chosen.length ? group.arcs.length : 2;
    for (const arc of group.arcs.slice(0, most)) drawn.push({ group, arc });
  }
  return drawn;
}

function drawRaces(layer) {
  let drawn = 0;
  for (const { group, arc } of raceArcs()) {
    const [a, b] = [point(arc.slice(0, 3)), point(arc.slice(3, 6))];
    const x1 = scale.x(axisValue(a));
    const x2 = scale.x(axisValue(b));
    if (!scale.sees(x1, x2) || drawn >= ARCS_DRAWN) continue;
    drawn++;
    const style = "stroke:var(--race);stroke-width:1.5;fill:none;stroke-dasharray:5 3";
    layer.append(titled(
      shape("path", { d: racePath(a.hart, x1, b.hart, x2), style }),
      `race on ${group.word}: ${placeText(group.first)} and ${placeText(group.second)}, ${plural(group.pairs, "pair")}`));
    for (const [x, hart] of [[x1, a.hart], [x2, b.hart]]) {
      layer.append(shape("circle", { cx: x, cy: scale.lane(hart) + BAR + STRIP / 2 + 2, r: 2.6, style: "fill:var(--race)" }));
    }
  }
}

function racePath(hart1, x1, hart2, x2) {
  const y1 = scale.lane(hart1) + BAR + STRIP / 2 + 2;
  const y2 = scale.lane(hart2) + BAR + STRIP / 2 + 2;
  const bend = Math.min(60, 14 + Math.abs(x2 - x1) * 0.15);
  const side = Math.max(x1, x2) + bend > scale.right ? -1 : 1;
  return `M${x1} ${y1}C${x1 + side * bend} ${y1 + (y2 - y1) / 3},${x2 + side * bend} ${y2 - (y2 - y1) / 3},${x2} ${y2}`;
}

function drawSuspects(svg, layer) {
  const marks = [];
  D.suspects.forEach((suspect, rank) => {
    const at = point(suspect.at);
    marks.push({ x: scale.x(axisValue(at)), y: scale.lane(at.hart) - 6, rank, at });
    if (suspect.load) layer.append(suspectPath(at, point(suspect.load), rank));
  });
  placeMarks(marks.reverse()).forEach((mark) => svg.append(suspectMark(mark)));
}

function suspectPath(at, load, rank) {
  const x1 = scale.x(axisValue(at));
  const x2 = scale.x(axisValue(load));
  const y1 = scale.lane(at.hart) - 6;
  const y2 = scale.lane(load.hart);
  const lift = y1 - 20 - Math.min(16, Math.abs(x2 - x1) / 20);
  const path = at.hart === load.hart
    ? `M${x1} ${y1}C${x1 + (x2 - x1) * 0.25} ${lift},${x1 + (x2 - x1) * 0.75} ${lift},${x2} ${y2}`
    : `M${x1} ${y1 + 6}L${x2} ${load.hart < at.hart ? y2 + LANE_BOTTOM : y2}`;
  const style = `stroke:var(--hot);stroke-width:${rank ? 1.5 : 2.5};fill:none;opacity:${rank ? 0.75 : 1}`;
  return shape("path", { d: path, style, "marker-end": "url(#hot-head)" });
}

/* Numbers in view, side by side if their points are too close. */
function placeMarks(marks) {
  const used = [];
  const middle = scale.left + (scale.right - scale.left) * 0.6;
  return marks.filter(({ x }) => x >= scale.left && x <= scale.right).map((mark) => {
    const step = mark.x > middle ? -19 : 19;
    let shift = mark.x > scale.right - 8 ? 0.4 : 0;
    while (used.some(([x, y]) => Math.abs(x - mark.x - shift * step) < 18 && y === mark.y)) shift++;
    used.push([mark.x + shift * step, mark.y]);
    return { ...mark, shown: mark.x + shift * step };
  });
}

function suspectMark({ x, y, rank, at, shown }) {
  const made = shape("g", { style: "cursor:pointer" });
  made.append(
    shape("line", { x1: x, x2: x, y1: y, y2: y + LANE_BOTTOM + 5, style: "stroke:var(--hot);stroke-width:1.5" }),
    ...rankMark(shown, y, rank + 1));
  titled(made, `suspect ${rank + 1}: ${placeText(D.suspects[rank].place)}`);
  for (const event of ["pointerdown", "pointerup"]) made.addEventListener(event, (e) => e.stopPropagation());
  made.addEventListener("click", () => choose(at.hart, at.count));
  return made;
}

function drawFault(svg) {
  if (!D.fault) return;
  const x = scale.x(axisValue(start));
  if (x < scale.left || x > scale.right + 1) return;
  const toRight = x < scale.width * 0.6;
  svg.append(
    shape("line", { x1: x, x2: x, y1: 22, y2: scale.axis, style: "stroke:var(--fault);stroke-width:1.5;stroke-dasharray:2 3" }),
    shape("rect", { x: x - 4, y: scale.lane(start.hart) - 3, width: 8, height: LANE_BOTTOM + 5, rx: 2, style: "fill:var(--fault)" }),
    shape("text", {
      x: toRight ? x + 6 : x + 2, y: 15, "font-size": 12.5, "font-weight": 650,
      "text-anchor": toRight ? "start" : "end", style: "fill:var(--fault)",
    }, `fault: ${D.fault.join(" ")}, hart ${start.hart}`));
}

function drawChosen(svg) {
  if (!state.chosen) return;
  const x = scale.x(axisValue(state.chosen));
  if (x < scale.left || x > scale.right) return;
  const y = scale.lane(state.chosen.hart);
  svg.append(
    shape("line", { x1: x, x2: x, y1: y - 6, y2: y + 38, style: "stroke:var(--sel);stroke-width:2" }),
    shape("path", { d: `M${x - 5} ${y + 44}h10l-5 -7z`, style: "fill:var(--sel)" }));
}

function timelineNotes({ shown, lost }) {
  const notes = [];
  if (D.allEdges) {
    const kept = edges.length < D.allEdges ? ` (the page has ${commas(edges.length)} of them, most at the end)` : "";
    const before = lost ? `; ${commas(lost)} lie before the first rows` : "";
    notes.push(shown < D.allEdges
      ? `${commas(shown)} of ${plural(D.allEdges, "Edge")} are drawn, one for each place on the screen${kept}${before}. Zoom in for more.`
      : `${D.allEdges === 1 ? "The one Edge is" : `All ${commas(D.allEdges)} Edges are`} drawn.`);
  }
  if (D.unread) notes.push(`Only the last ${plural(D.rows, "row")} of the log were read: what was before is faded on the left.`);
  else if (D.dropped) notes.push(`The log dropped its first ${plural(D.dropped, "record")}: what they told is faded on the left.`);
  if (state.order === "count" && D.harts > 1) {
    notes.push("Each hart has counts of its own: two points above each other aren't at the same time. Races are drawn for a chosen group.");
  } else if (D.races.length) {
    notes.push(state.race < 0 ? "Choose a group of races below to see all its arcs." : "The arcs are those of the chosen group of races.");
  }
  if (D.fault && D.harts > 1 && state.order === "joint") {
    notes.push("Nothing orders the last instructions of the other harts and the fault, so their bars may go on behind its line.");
  }
  return notes;
}
