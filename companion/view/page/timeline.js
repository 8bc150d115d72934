/* The timeline: harts as lanes, intervals as bars, and over them Edges, races, suspects, the fault, the chosen point. */
const BAR = 20;             // height of an interval's bar
const STRIP = 8;            // height of the strip of functions under it
const LANE_BOTTOM = BAR + STRIP + 3;
const EDGES_DRAWN = 700;
const RACE_GROUPS_DRAWN = 8;
const ARCS_DRAWN = 60;
let scale = null;           // of the latest drawing

function makeScale(svg) {
  const width = Math.max(320, svg.clientWidth || 1000);
  const top = D.suspects.length || D.fault ? 46 : 18;
  const laneHeight = D.harts > 8 ? 52 : 64;
  const left = 74;
  const right = width - 18;
  const unit = (right - left) / (state.to - state.from);
  const axis = top + D.harts * laneHeight + 4;
  return {
    width, top, laneHeight, left, right, axis, height: axis + 26,
    x: (value) => left + (value - state.from) * unit,
    value: (x) => state.from + (x - left) / unit,
    lane: (hart) => top + hart * laneHeight + 14,
    sees: (a, b) => Math.max(a, b) >= left && Math.min(a, b) <= right,
  };
}

function draw() {
  const svg = byId("timeline");
  scale = makeScale(svg);
  svg.setAttribute("viewBox", `0 0 ${scale.width} ${scale.height}`);
  svg.setAttribute("height", scale.height);
  svg.replaceChildren(definitions());
  const clipped = shape("g", { "clip-path": "url(#clip)" });
  drawGrid(svg);
  drawLanes(svg);
  svg.append(clipped);
  const told = drawEdges(clipped);
  drawGivenUp(clipped);
  for (const interval of intervalsToDraw()) drawInterval(clipped, interval);
  D.strips.forEach(([hart, end, runs]) => drawStrip(clipped, hart, end, runs));
  drawRaces(clipped);
  drawStory(clipped);
  drawSuspects(svg, clipped);
  drawFault(svg);
  drawChosen(svg);
  byId("order-joint").setAttribute("aria-pressed", state.order === "joint");
  byId("order-count").setAttribute("aria-pressed", state.order === "count");
  byId("timeline-note").textContent = timelineNotes(told).join(" ");
}

function arrowHead(id, fill) {
  const marker = shape("marker", { id, viewBox: "0 0 8 8", refX: 7, refY: 4, markerWidth: 7, markerHeight: 7, orient: "auto" });
  marker.append(shape("path", { d: "M0 .8 8 4 0 7.2z", style: `fill:${fill}` }));
  return marker;
}

function definitions() {
  const made = shape("defs", {});
  const clip = shape("clipPath", { id: "clip" });
  clip.append(shape("rect", { x: scale.left, y: 0, width: scale.right - scale.left, height: scale.height }));
  const fade = shape("linearGradient", { id: "fade" });
  fade.append(
    shape("stop", { offset: 0, style: "stop-color:var(--length);stop-opacity:0" }),
    shape("stop", { offset: 1, style: "stop-color:var(--length);stop-opacity:.9" }));
  made.append(clip, fade, arrowHead("edge-head", "var(--edge)"), arrowHead("hot-head", "var(--hot)"));
  return made;
}

/* A round distance between the lines of the grid. */
function gridStep(width) {
  const about = width / 8;
  const power = 10 ** Math.floor(Math.log10(Math.max(about, 1)));
  return [1, 2, 5].map((factor) => power * factor).find((step) => step >= about) || power * 10;
}

function drawGrid(svg) {
  const step = gridStep(state.to - state.from);
  const label = { y: scale.axis + 14, "font-size": 11, style: "fill:var(--soft)" };
  for (let value = Math.ceil(state.from / step) * step; value <= state.to; value += step) {
    if (value < 0) continue;
    const x = scale.x(value);
    svg.append(shape("line", { x1: x, x2: x, y1: scale.top - 4, y2: scale.axis, style: "stroke:var(--grid)" }));
    svg.append(shape("text", { x, "text-anchor": "middle", ...label }, commas(Math.abs(value))));
  }
  svg.append(shape("text", { x: 4, ...label }, state.order === "joint" ? "row" : "count"));
}

function drawLanes(svg) {
  for (let hart = 0; hart < D.harts; hart++) {
    const end = ends.get(hart);
    const faulted = end && kindOf(end.reason) === "fault";
    const y = scale.lane(hart);
    const below = scale.top + (hart + 1) * scale.laneHeight;
    svg.append(
      shape("text", { x: 4, y: y + 11, "font-size": 13, "font-weight": 650 }, `hart ${hart}`),
      shape("text", { x: 4, y: y + 26, "font-size": 11, style: `fill:var(--${faulted ? "fault" : "soft"})` },
        faulted ? "faulted" : end ? end.reason : "no end"),
      shape("line", { x1: scale.left, x2: scale.right, y1: below, y2: below, style: "stroke:var(--grid)" }));
  }
}

/* A fading bar before a hart's first interval, if the log dropped what was before. */
function drawGivenUp(layer) {
  for (const [hart, count] of firstCount) {
    if (!count) continue;
    const x = scale.x(axisValue({ hart, count }));
    if (x < scale.left - 1) continue;
    const width = Math.max(14, Math.min(70, x - scale.left));
    layer.append(titled(
      shape("rect", { x: x - width, y: scale.lane(hart), width, height: BAR, fill: "url(#fade)" }),
      `The log dropped ${commas(count)} instructions before the first interval of hart ${hart}`));
  }
}

/* The intervals in view; of those that share a pixel of a lane only the first. */
function intervalsToDraw() {
  const taken = new Set();
  return intervals.map((interval) => {
    const from = scale.x(axisValue({ hart: interval.hart, count: interval.start, row: interval.row }));
    const to = scale.x(state.order === "count" ? interval.end : interval.endRow);
    return { ...interval, from, to };
  }).filter(({ hart, from, to, reason }) => {
    if (!scale.sees(from, to)) return false;
    const key = `${hart}:${Math.round(from)}`;
    const hidden = to - from < 1 && taken.has(key) && kindOf(reason) !== "fault";
    taken.add(key);
    return !hidden;
  });
}

function drawInterval(layer, { hart, number, start: first, end, reason, value, from, to }) {
  const kind = kindOf(reason);
  const width = Math.max(1.5, to - from);
  const y = scale.lane(hart);
  const fill = `fill:var(--${kind === "fault" ? "length" : kind});stroke:var(--panel);stroke-width:${width > 4 ? 1 : 0}`;
  layer.append(titled(
    shape("rect", { x: from, y, width, height: BAR, rx: width > 6 ? 3 : 0, style: fill }),
    `hart ${hart}, interval ${number}: counts ${commas(first)} to ${commas(end)}, ended by ${reason} ${value}`));
  const left = Math.max(from, scale.left);
  const room = Math.min(to, scale.right) - left;
  const full = `#${number}  ${reason}`;
  const brief = `#${number}`;
  const label = room > full.length * 7 + 10 ? full : room > brief.length * 7 + 16 ? brief : "";
  if (label) layer.append(shape("text", { x: left + 6, y: y + 14, "font-size": 11.5, style: "fill:var(--barink);pointer-events:none" }, label));
}

/* The functions that a hart was in, where it ran. Narrow parts of one colour are one path: there can be thousands. */
function drawStrip(layer, hart, end, runs) {
  const y = scale.lane(hart) + BAR + 2;
  const narrow = new Map();
  let drawn = -Infinity;
  runs.forEach(([count, index], i) => {
    for (const [first, last] of axisPieces(hart, count, i + 1 < runs.length ? runs[i + 1][0] : end)) {
      const from = scale.x(first);
      const to = scale.x(last);
      if (!scale.sees(from, to) || to - drawn < 0.7) continue;
      drawn = to;
      const width = Math.max(0.7, to - from);
      const colour = functionColours[index];
      if (width > 6) {
        const bar = shape("rect", { x: from, y, width, height: STRIP, style: `fill:${colour}` });
        layer.append(titled(bar, D.functions[index][0]));
      } else {
        narrow.set(colour, `${narrow.get(colour) || ""}M${from.toFixed(1)} ${y}h${width.toFixed(1)}v${STRIP}h-${width.toFixed(1)}z`);
      }
    }
  });
  for (const [colour, path] of narrow) layer.append(shape("path", { d: path, style: `fill:${colour}` }));
}
