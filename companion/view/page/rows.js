/* The rows and the call stack around the chosen point. */
const ROWS_BEFORE = 9;
const ROWS_AFTER = 9;
const CALLS_TOLD = 14;
const windows = D.windows.map(([hart, count, codes, tails, calls]) => ({ hart, count, codes, tails: tails.split("\n"), calls }));
const windowsOf = new Map();
for (const found of windows) {
  if (!windowsOf.has(found.hart)) windowsOf.set(found.hart, []);
  windowsOf.get(found.hart).push(found);
}

/* The window that has a hart's count, and the place in it; or null. */
function rowAt(hart, count) {
  for (const found of windowsOf.get(hart) || []) {
    const at = count - found.count;
    if (at >= 0 && at < found.codes.length) return { window: found, at };
  }
  return null;
}

/* The nearest count of a hart whose row is in the page; or null. */
function nearestCount(hart, count) {
  let best = null;
  for (const found of windowsOf.get(hart) || []) {
    const near = Math.max(found.count, Math.min(count, found.count + found.codes.length - 1));
    if (best === null || Math.abs(near - count) < Math.abs(best - count)) best = near;
  }
  return best;
}

/* Chooses a point and shows its rows; moves the timeline to it if it is out of sight. */
function choose(hart, count, keepView) {
  const at = rowAt(hart, count) ? count : nearestCount(hart, count);
  if (at === null) return;
  state.chosen = { hart, count: at, row: knownRow(hart, at) };
  const value = axisValue(state.chosen);
  if (!keepView && (value < state.from || value > state.to)) {
    const half = (state.to - state.from) / 2;
    showPart(value - half, value + half);
  }
  showPoint(count);
  draw();
}

/* Segments may be thinned, so the rows of points that the page names are taken from these. */
function knownRow(hart, count) {
  const named = [start, ...D.suspects.flatMap(({ at, load, steps }) => [at, load, ...steps.map((step) => step.at)].filter(Boolean).map(point))];
  const same = named.find((known) => known.hart === hart && known.count === count);
  return same ? same.row : rowOfCount(hart, count);
}

function intervalOf(hart, count) {
  return intervals.find((one) => one.hart === hart && count >= one.start &&
    (count < one.end || (count === one.end && kindOf(one.reason) === "fault")));
}

function showPoint(asked) {
  const { hart, count } = state.chosen;
  const { window: found, at } = rowAt(hart, count);
  const interval = intervalOf(hart, count);
  byId("point-head").replaceChildren(
    `Hart ${hart}, count ${commas(count)}`,
    element("small", interval ? `interval ${interval.number}, which ended by ${interval.reason} at ${commas(interval.end)}` : ""));
  showCalls(byId("calls"), found, at);
  byId("rows").replaceChildren(rowTable(found, at));
  const missing = asked === count ? "" : `The row at count ${commas(asked)} isn't in this page; these are the nearest. `;
  byId("row-note").textContent = missing +
    (interval ? `All rows of the interval: zelkuma replay ${D.log} ${D.elf} ${hart} ${interval.number}` : "");
}

function rowTable(found, at) {
  const table = element("table");
  const last = Math.min(found.codes.length, at + ROWS_AFTER + 1);
  for (let i = Math.max(0, at - ROWS_BEFORE); i < last; i++) {
    const [pc, text, placeIndex] = D.codes[found.codes[i]];
    const tail = found.tails[i];
    const row = element("tr", undefined, i === at ? "here" : "");
    if (/(^|\| )fault /.test(tail)) row.classList.add("bad");
    for (const cell of [commas(found.count + i), hex(pc), text, withWords(tail), placeWithName(placeIndex)]) row.append(cellOf(cell));
    row.addEventListener("click", () => choose(found.hart, found.count + i));
    table.append(row);
  }
  return table;
}

/* The places of the calls around a row, innermost first; a number below 0 says how many are left out. */
function callPlaces(found, at) {
  let node = 0;
  for (const [offset, index] of found.calls) if (offset <= at) node = index;
  const places = [D.codes[found.codes[at]][2]];
  while (node) {
    const [outer, index] = D.nodes[node];
    places.push(index);
    node = outer;
  }
  return places;
}

/* The frames of these calls; a frame that is there several times in a row, as in a recursion, is one. */
function framesAt(found, at) {
  const frames = [];
  for (const index of callPlaces(found, at)) {
    if (index < 0) {
      frames.push({ more: -index });
      continue;
    }
    const { name, line, outer } = place(index);
    [[name, line], ...outer].forEach(([frameName, frameLine], depth) => {
      const last = frames[frames.length - 1];
      if (last && last.name === frameName && last.line === frameLine) last.times++;
      else frames.push({ name: frameName, line: frameLine, inlined: depth < outer.length, times: 1 });
    });
  }
  return frames;
}

function boldName(name) {
  const made = element("b");
  made.append(name ? functionName(name) : "?");
  return made;
}

function showCalls(list, found, at) {
  const frames = framesAt(found, at);
  const cut = frames.length > CALLS_TOLD ? frames.splice(CALLS_TOLD - 2, frames.length - CALLS_TOLD + 1) : [];
  if (cut.length) frames.splice(CALLS_TOLD - 2, 0, { more: cut.reduce((sum, { more, times }) => sum + (more || times), 0) });
  list.replaceChildren(...frames.map((frame, index) => {
    if (frame.more) return element("li", `      … ${plural(frame.more, "more call")}`, "dim");
    const item = element("li");
    item.append(element("span", index ? "from  " : "at    ", "dim"), boldName(frame.name), element("span", `  ${frame.line}`));
    const about = (frame.times > 1 ? `  × ${commas(frame.times)}` : "") + (frame.inlined && frame.times === 1 ? "  inlined" : "");
    if (about) item.append(element("span", about, "dim"));
    return item;
  }));
}

/* To the next or the last row of the hart; over rows that the page doesn't have, with a note. */
function stepRow(direction) {
  if (!state.chosen) return;
  const { hart, count } = state.chosen;
  if (rowAt(hart, count + direction)) {
    choose(hart, count + direction);
    return;
  }
  const edgesOfWindows = (windowsOf.get(hart) || [])
    .map((found) => direction > 0 ? found.count : found.count + found.codes.length - 1)
    .filter((at) => (at - count) * direction > 0);
  if (!edgesOfWindows.length) return;
  const next = direction > 0 ? Math.min(...edgesOfWindows) : Math.max(...edgesOfWindows);
  choose(hart, next);
  byId("row-note").prepend(`${plural(Math.abs(next - count) - 1, "row")} between aren't in this page. `);
}
