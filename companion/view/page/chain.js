/* The chain of values as boxes, one for each source line: which row needed which. */
const BOX = { width: 252, height: 58, gapX: 28, gapY: 42 };

function boxCorner({ column, depth }) {
  return { x: column * (BOX.width + BOX.gapX), y: depth * (BOX.height + BOX.gapY) };
}

function showChain() {
  const svg = byId("chain");
  const { nodes, links } = D.chain;
  byId("chain-note").textContent = `${commas(D.chainRows)} of ${plural(D.rows, "row")} stand behind the end` +
    `${D.chainCut ? " (the search was cut off there)" : ""}. Dashed: where an address came from.`;
  if (!nodes.length) return;
  const columns = Math.max(...nodes.map(({ column }) => column)) + 1;
  const depth = Math.max(...nodes.map((node) => node.depth)) + 1;
  const width = columns * (BOX.width + BOX.gapX) - BOX.gapX + 26;
  const height = depth * (BOX.height + BOX.gapY) - BOX.gapY + 4;
  svg.setAttribute("viewBox", `-1 -1 ${width} ${height}`);
  svg.setAttribute("width", width);
  svg.setAttribute("height", height);
  svg.style.minWidth = `${Math.round(width * 0.9)}px`; /* smaller text isn't readable: the chain scrolls instead */
  const heads = shape("defs", {});
  heads.append(arrowHead("chain-head-value", "var(--soft)"), arrowHead("chain-head-memory", "var(--hot)"));
  svg.append(heads);
  for (const [from, to, how] of links) drawChainLink(svg, nodes[from], nodes[to], how);
  for (const node of nodes) svg.append(chainBox(node));
}

const CHAIN_WORDS = {
  memory: "stored in memory by", before: "no row stored it", address: "its address from", value: "value from",
  decision: "decided by", "the loop": "in the same loop", back: "memory given back by",
};

function drawChainLink(svg, from, to, how) {
  const a = boxCorner(from);
  const b = boxCorner(to);
  const memory = how === "memory";
  const colour = memory ? "hot" : "soft";
  const x1 = a.x + BOX.width / 2;
  const y1 = a.y + BOX.height;
  const x2 = b.x + BOX.width / 2;
  const y2 = b.y - 1;
  const path = a.x === b.x ? `M${x1} ${y1}L${x2} ${y2}` : `M${a.x + BOX.width - 26} ${y1}v4q0 6 6 6H${x2 - 6}q6 0 6 6V${y2}`;
  svg.append(
    shape("path", {
      d: path, "marker-end": `url(#chain-head-${memory ? "memory" : "value"})`,
      style: `fill:none;stroke:var(--${colour});stroke-width:${memory ? 2.4 : 1.3};${how === "address" ? "stroke-dasharray:5 4" : ""}`,
    }),
    shape("text", { x: x2 + 8, y: y2 - 9, "font-size": 11.5, style: `fill:var(--${colour})` }, CHAIN_WORDS[how] || how));
}

function chainBox(node) {
  const { x, y } = boxCorner(node);
  const made = shape("g", node.at ? { tabindex: 0, role: "button", style: "cursor:pointer" } : {});
  const first = node.depth === 0;
  const [fill, stroke] = first && D.fault ? ["faultbg", "fault"] : node.rank > 0 ? ["hotbg", "hot"] : ["bg", "line"];
  const look = `fill:var(--${fill});stroke:var(--${stroke});stroke-width:${node.rank > 0 || first ? 1.8 : 1};`;
  const style = look + (node.said ? "stroke-dasharray:5 4" : "");
  made.append(shape("rect", { x, y, width: BOX.width, height: BOX.height, rx: 7, style }));
  boxLines(node).forEach(([text, lineStyle], line) =>
    made.append(shape("text", { x: x + 12, y: y + 17 + line * 16, "font-size": line ? 11 : 12.5, style: lineStyle }, text)));
  if (node.rank > 0) made.append(...rankMark(x + BOX.width - 16, y + 16, node.rank));
  if (node.at) followBox(made, node);
  return made;
}

/* A suspect's number in a filled circle. */
function rankMark(x, y, rank) {
  return [
    shape("circle", { cx: x, cy: y, r: 9, style: "fill:var(--hot);stroke:var(--panel);stroke-width:1.5" }),
    shape("text", { x, y: y + 4, "text-anchor": "middle", "font-size": 11.5, "font-weight": 700, style: "fill:var(--panel)" }, rank),
  ];
}

/* Up to three lines of text of a box, each with its style. */
function boxLines(node) {
  if (node.skipped) return [["", ""], [`… ${plural(node.skipped, "row")} between`, "fill:var(--soft)"]];
  if (node.said) return [[shorten(node.said, 33), "font-weight:650"], [shorten(node.told, 38), "fill:var(--soft)"]];
  const { name, line, source } = place(node.place);
  const rows = node.rows > 1 ? `, ${plural(node.rows, "row")}` : "";
  return [
    [shorten(`${name || "?"}  ${line}`, node.rank > 0 ? 28 : 33), "font-weight:650"],
    [shorten(source || node.told, 34), "fill:var(--soft);font-family:var(--mono)"],
    [shorten(`hart ${node.at[0]}, count ${commas(node.at[1])}${rows}`, 36), "fill:var(--soft)"],
  ];
}

function followBox(made, node) {
  titled(made, `${placeText(node.place)}\n${place(node.place).source}\n${node.told}`);
  const go = () => choose(node.at[0], node.at[1]);
  made.addEventListener("click", go);
  made.addEventListener("keydown", (event) => {
    if (event.key !== "Enter" && event.key !== " ") return;
    event.preventDefault();
    go();
  });
}
