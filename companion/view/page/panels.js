/* The parts of the page that don't change: heading, fault, suspects, legend, races, intervals, registers. */
const RACES_TOLD = 14;
const INTERVALS_TOLD = 16;
/* Of each kind of page the heads of its first two parts, and what stands before the place. */
const HEADS = {
  hang: ["The loop", "Why it goes on"], output: ["The output", "Where the byte came from"],
  row: ["The row", "Where the value in that row came from"], end: ["The end", "Where the value in that row came from"],
};
const WHERE = {
  fault: "It happened in ", hang: "A branch that would have ended it: ", output: "It was stored in ", row: "Shown below: ",
  end: "Shown below: ",
};

function showHeading() {
  const title = byId("title");
  const { name, line } = place(D.where);
  title.append(D.elf);
  if (D.fault) {
    title.append(" crashed: ", element("span", D.fault.join(" "), "bad"), ` in ${name ? `${name}, ${line}` : line}`);
  } else {
    title.append(D.about === "output" ? `: a byte of its output, from ${name ? `${name}, ${line}` : line}` : `: no fault, ${endsInWords()}`);
  }
  const parts = [
    `${commas(D.bytes)} bytes`, plural(D.harts, "hart"), plural(intervals.length, "interval"),
    `${plural(D.rows, "row")} replayed`, plural(D.allEdges, "Edge"),
  ];
  if (D.allRaces) parts.push(plural(D.allRaces, "race"));
  parts.push(D.dropped ? `${plural(D.dropped, "record")} dropped before` : "the whole run");
  byId("subtitle").textContent = [`${D.log}: ${parts.join(", ")}`, ...D.notes].join(". ");
}

function endsInWords() {
  const said = { exit: "exited", group: "exited for all", limit: "at the limit", stopped: "stopped" };
  const byReason = new Map();
  for (const { hart, reason } of ends.values()) {
    if (!byReason.has(reason)) byReason.set(reason, []);
    byReason.get(reason).push(hart);
  }
  return [...byReason].map(([reason, harts]) => {
    const all = harts.length === D.harts && D.harts > 1;
    const who = all ? (D.harts === 2 ? "both harts" : `all ${D.harts} harts`) : `hart${harts.length > 1 ? "s" : ""} ${harts.join(", ")}`;
    return `${who} ${said[reason] || reason}`;
  }).join(", ");
}

function showEnd() {
  const box = byId("fault");
  if (!D.fault) {
    const [head, suspects] = HEADS[D.about];
    byId("fault-head").textContent = head;
    byId("suspects-head").textContent = suspects;
    byId("fault-card").classList.remove("fault");
    if (D.about === "row" || D.about === "end") byId("suspects-card").classList.remove("hot");
    if (D.about !== "output") box.append(endList());
  }
  for (const sentence of D.words) box.append(element("p", sentence));
  const where = element("p", WHERE[D.about]);
  where.append(element("b", placeText(D.where)));
  box.append(where);
  box.append(sourceBox(D.where));
  const calls = element("ul", undefined, "calls");
  const found = rowAt(start.hart, start.count);
  if (found) showCalls(calls, found.window, found.at);
  const go = link(`Hart ${start.hart}, count ${commas(start.count)}`, () => choose(start.hart, start.count));
  go.id = "go-start";
  box.append(element("h2", "Calls", "inner"), calls, go);
  if (D.hang.length) showLines("hang", D.hang);
  if (D.memory.length) showLines("memory", D.memory);
}

/* A card of lines as `why` tells them: what hangs, since when, and what would have ended it; errors of memory. */
function showLines(name, lines) {
  byId(`${name}-card`).hidden = false;
  byId(name).textContent = lines.join("\n");
}

function endList() {
  const list = element("div", undefined, ends.size > 3 ? "two-columns" : "");
  for (const { hart, count, reason, value } of ends.values()) {
    list.append(element("p", `hart ${hart}: ${reason} ${value}, count ${commas(count)}`));
  }
  return list;
}

function showSuspects() {
  const list = byId("suspects");
  if (!D.suspects.length) {
    list.replaceWith(element("p", D.noSuspect));
    return;
  }
  D.suspects.forEach((suspect, rank) => {
    const item = element("li");
    item.append(element("span", rank + 1, "number"), suspectBox(suspect, rank));
    list.append(item);
  });
}

function suspectBox(suspect, rank) {
  const box = element("div");
  const did = D.harts > 1 ? `hart ${suspect.at[0]} ${suspect.did} ` : `${suspect.did} `;
  const head = element("div", did[0].toUpperCase() + did.slice(1));
  const go = link(placeText(suspect.place), () => choose(suspect.at[0], suspect.at[1]));
  go.id = `suspect-${rank + 1}`;
  head.append(go);
  box.append(head);
  box.append(sourceBox(suspect.place));
  if (suspect.calledFrom.length) box.append(element("div", `called from ${suspect.calledFrom.join(" ‹ ")}`, "dim"));
  for (const step of suspect.steps) box.append(suspectStep(step));
  const tags = element("div", undefined, "tags");
  for (const reason of suspect.why) tags.append(element("span", reason, "tag"));
  if (suspect.pairs > 1) tags.append(element("span", `${commas(suspect.pairs)} such pairs`, "tag"));
  box.append(tags);
  return box;
}

/* The line of source at a place, between the one before and the one behind; nothing if the source isn't there. */
function sourceBox(index) {
  const box = element("div", undefined, "lines");
  const [first, lines] = D.around[index] || [0, []];
  const here = Number(place(index).line.split(":").pop());
  lines.forEach((text, i) => box.append(element("div", `${first + i}  ${text}`, first + i === here ? "source" : "source beside")));
  return box;
}

function suspectStep(step) {
  const line = element("div");
  line.append(
    element("span", D.harts > 1 && step.word ? `hart ${step.at[0]} ${step.words} ` : `${step.words} `, "dim"),
    link(placeText(step.place), () => choose(step.at[0], step.at[1])));
  if (step.word) {
    const word = element("code");
    word.append(withWords(step.word));
    line.append(element("span", " as ", "dim"), word);
  }
  if (step.about) line.append(element("span", ` (${step.about})`, "dim"));
  return line;
}

function legendItem(sample, text) {
  const item = element("span");
  item.append(sample, text);
  byId("legend").append(item);
}

function chip(colour) {
  const made = element("i", undefined, "chip");
  made.style.background = colour;
  return made;
}

function lineSample(colour, dashed) {
  const made = shape("svg", { width: 22, height: 10 });
  made.append(shape("line", { x1: 0, x2: 22, y1: 5, y2: 5, style: `stroke:${colour};stroke-width:2;${dashed ? "stroke-dasharray:4 3" : ""}` }));
  return made;
}

function showLegend() {
  const said = {
    length: "interval, ended at full length", call: "ended by a system call", guard: "cut by the guard", good: "exit",
    stopped: "stopped by another hart", limit: "limit reached",
  };
  const kinds = new Set(intervals.map(({ reason }) => kindOf(reason)));
  for (const kind in said) if (kinds.has(kind)) legendItem(chip(`var(--${kind})`), said[kind]);
  if (kinds.has("fault")) legendItem(chip("var(--fault)"), "the fault");
  if (D.suspects.length) legendItem(lineSample("var(--hot)"), D.fault ? "from a suspect to the load behind the fault" : "from a suspect to its load");
  if (D.allEdges) legendItem(lineSample("var(--edge)"), "Edge: comes after");
  if (D.races.length) legendItem(lineSample("var(--race)", true), "race");
  byId("legend").append(element("span", "Thin strip: the function, where the hart runs"));
  const told = functionsByShare.filter((index) => D.functions[index][1] >= 0.1).slice(0, 8);
  for (const index of told) legendItem(chip(functionColours[index]), `${D.functions[index][0]} ${D.functions[index][1]}%`);
  const more = functionsByShare.length - told.length;
  if (more > 0) legendItem(chip(REST_COLOUR), `${more} more`);
}

function tableOf(columns) {
  const table = element("table", undefined, "plain");
  const head = element("tr");
  for (const [text, className] of columns) head.append(element("th", text, className));
  table.append(head);
  return table;
}

function cellOf(content, className) {
  const cell = element("td", undefined, className);
  cell.append(content);
  return cell;
}

function showRaces() {
  const box = byId("races");
  if (D.harts < 2) {
    byId("races-card").hidden = true;
    return;
  }
  byId("races-head").textContent = `Races: ${plural(D.allRaces, "pair")} that no atomic instruction orders, in ${plural(D.raceGroups, "group")}`;
  if (D.racesNote) box.append(element("p", D.racesNote, "note"));
  if (!D.races.length) return;
  const table = tableOf([["pairs", "n"], ["word"], ["one access"], ["the other"], ["judged"]]);
  D.races.slice(0, RACES_TOLD).forEach((group, index) => table.append(raceRow(group, index)));
  box.append(table);
  const more = D.raceGroups - Math.min(D.races.length, RACES_TOLD);
  if (more > 0) box.append(element("p", `${plural(more, "more group")}: zelkuma race ${D.log} ${D.elf}`, "note"));
  box.append(element("p", "Grouping and order are this page's own judgement; the exact list is that of zelkuma races.", "note"));
}

function raceRow(group, index) {
  const row = element("tr");
  const [first] = group.arcs;
  const pairs = link(commas(group.pairs), () => chooseRace(index));
  pairs.title = "shows the arcs of this group";
  pairs.dataset.race = index;
  row.append(
    cellOf(pairs, "n"), cellOf(withWords(group.word)),
    cellOf(link(placeText(group.first), () => choose(first[0], first[1]))),
    cellOf(link(placeText(group.second), () => choose(first[3], first[4]))),
    element("td", group.judged, "dim"));
  return row;
}

/* Draws the arcs of one group alone; the same group again, those of the first groups. */
function chooseRace(index) {
  state.race = state.race === index ? -1 : index;
  document.querySelectorAll("#races button[data-race]").forEach((button) =>
    button.setAttribute("aria-pressed", Number(button.dataset.race) === state.race));
  draw();
}

function showIntervals() {
  byId("intervals-head").textContent = `Intervals that the log holds: ${commas(intervals.length)}`;
  const table = tableOf([["hart", "n"], ["interval", "n"], ["from count", "n"], ["to count", "n"], ["ended by"], ["value"]]);
  for (const { hart, number, start: from, end, reason, value } of intervals.slice(-INTERVALS_TOLD)) {
    const row = element("tr");
    const last = kindOf(reason) === "fault" ? end : end - 1;
    row.append(
      element("td", hart, "n"), element("td", number, "n"), element("td", commas(from), "n"),
      cellOf(link(commas(end), () => choose(hart, last)), "n"), element("td", reason), element("td", value));
    table.append(row);
  }
  byId("intervals").append(table);
  if (intervals.length > INTERVALS_TOLD) {
    byId("intervals").append(element("p", `The last ${INTERVALS_TOLD}; zelkuma list ${D.log} prints all.`, "note"));
  }
}

function showRegisters() {
  byId("registers-head").textContent = `Registers of hart ${start.hart} at the end`;
  if (D.registers.length) {
    const table = element("table", undefined, "plain");
    const columns = innerWidth > 980 ? 2 : 4;
    const rows = 32 / columns;
    for (let i = 0; i < rows; i++) {
      const row = element("tr");
      for (let index = i; index < 32; index += rows) {
        row.append(element("td", D.registerNames[index], "dim"), element("td", D.registers[index]));
      }
      table.append(row);
    }
    byId("registers").append(table);
  }
  if (!D.origin.length) return;
  byId("origin").append(element("h2", "What the chain took from before", "inner"));
  for (const [times, from, loader] of D.origin) {
    byId("origin").append(element("div", `${commas(times)} × ${from}, loaded by ${loader}`, "dim"));
  }
}
