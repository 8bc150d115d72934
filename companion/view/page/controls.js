/* Buttons, keys, the pointer, the page's address; and the first drawing. */
const timeline = byId("timeline");
const lastShown = [];           // of each suspect whether its guilty row was shown last
let pressed = null;             // where the pointer went down

function zoom(factor, value) {
  const near = value !== undefined ? value : state.chosen ? axisValue(state.chosen) : state.from;
  const middle = near < state.from || near > state.to ? (state.from + state.to) / 2 : near;
  showPart(middle - (middle - state.from) * factor, middle + (state.to - middle) * factor);
  draw();
}

function pan(share) {
  const by = (state.to - state.from) * share;
  showPart(state.from + by, state.to + by);
  draw();
}

function fit() {
  showAll();
  draw();
}

function setOrder(order) {
  if (D.harts < 2) return;
  state.order = order;
  fit();
}

/* Chooses the end's row and shows the last part of the axis. */
function goToEnd() {
  choose(start.hart, start.count);
  const value = axisValue(start);
  const [first, last] = wholeAxis();
  const width = Math.max(60, (last - first) / 25);
  showPart(value - width * 0.8, value + width * 0.2);
  draw();
}

function goToSuspect(index) {
  const suspect = D.suspects[index];
  if (!suspect) return;
  lastShown[index] = !lastShown[index] || !suspect.load;
  const [hart, count] = lastShown[index] ? suspect.at : suspect.load;
  choose(hart, count);
}

const KEYS = {
  ArrowLeft: () => pan(-0.2), ArrowRight: () => pan(0.2), ArrowUp: () => stepRow(-1), ArrowDown: () => stepRow(1),
  "+": () => zoom(0.5), "=": () => zoom(0.5), "-": () => zoom(2), 0: fit, Home: fit,
  o: () => setOrder(state.order === "joint" ? "count" : "joint"), f: () => choose(start.hart, start.count), e: goToEnd,
};

function onKey(event) {
  if (event.ctrlKey || event.metaKey || event.altKey) return;
  const focus = document.activeElement;
  const scrolls = event.key === "ArrowUp" || event.key === "ArrowDown";
  if (scrolls && focus !== document.body && focus !== timeline) return;
  if (KEYS[event.key]) {
    KEYS[event.key]();
    event.preventDefault();
  } else if (event.key >= "1" && event.key <= "9") {
    goToSuspect(Number(event.key) - 1);
  }
}

/* A pointer's place in the drawing's own units. */
function placeOf(event) {
  const box = timeline.getBoundingClientRect();
  return { x: (event.clientX - box.left) * scale.width / box.width, y: (event.clientY - box.top) * scale.height / box.height };
}

function onPointerUp(event) {
  if (!pressed) return;
  const from = pressed;
  const { x, y } = placeOf(event);
  pressed = null;
  if (Math.abs(x - from.x) > 8) {
    showPart(scale.value(Math.min(from.x, x)), scale.value(Math.max(from.x, x)));
    draw();
    return;
  }
  const hart = Math.floor((y - scale.top) / scale.laneHeight);
  if (hart < 0 || hart >= D.harts || !D.segments[hart][0].length) return;
  const value = Math.max(0, scale.value(x));
  choose(hart, Math.round(state.order === "count" ? value : countOfRow(hart, value)), true);
}

function onWheel(event) {
  if (!event.ctrlKey && !event.shiftKey) return;
  event.preventDefault();
  zoom(event.deltaY > 0 ? 1.25 : 0.8, scale.value(placeOf(event).x));
}

/* #HART:COUNT opens the page at a row, #end near the end, #count by count. */
function followAddress() {
  const found = /^#(\d+):(\d+)$/.exec(location.hash);
  if (location.hash === "#end") goToEnd();
  else if (location.hash === "#count") setOrder("count");
  if (!found || Number(found[1]) >= D.harts) return;
  choose(Number(found[1]), Number(found[2]));
  if (!state.chosen) return;
  const value = axisValue(state.chosen);
  const [first, last] = wholeAxis();
  const half = Math.max(30, (last - first) / 40);
  showPart(value - half, value + half);
  draw();
}

function listen() {
  const buttons = {
    "zoom-in": () => zoom(0.5), "zoom-out": () => zoom(2), "show-all": fit, "show-end": goToEnd,
    "order-joint": () => setOrder("joint"), "order-count": () => setOrder("count"),
    "row-before": () => stepRow(-1), "row-after": () => stepRow(1),
  };
  for (const id in buttons) byId(id).addEventListener("click", buttons[id]);
  byId("order-joint").hidden = byId("order-count").hidden = D.harts < 2;
  document.addEventListener("keydown", onKey);
  timeline.addEventListener("pointerdown", (event) => { pressed = placeOf(event); });
  timeline.addEventListener("pointerup", onPointerUp);
  timeline.addEventListener("pointercancel", () => { pressed = null; });
  timeline.addEventListener("dblclick", (event) => zoom(0.25, scale.value(placeOf(event).x)));
  timeline.addEventListener("wheel", onWheel, { passive: false });
  window.addEventListener("resize", draw);
  window.addEventListener("beforeprint", fit);
  window.addEventListener("hashchange", followAddress);
}

function begin() {
  for (const show of [showHeading, showEnd, showSuspects, showStory, showLegend, showRaces, showIntervals, showRegisters, showChain, showQuestions]) show();
  showAll();
  draw();
  choose(start.hart, start.count, true);
  listen();
  followAddress();
}

begin();
