/* Histories of variables, calls of functions and variables at lines, if the page holds them: a click on a word, a name or a line
   opens them. */
const asked = D.questions || { most: 0, variables: [], functions: [], lines: [], leftOut: [] };
const WORD = /(?<![\w=])[0-9a-f]{8}(?=[=)]|$)/g;

function variableAt(address) {
  return asked.variables.find(({ first, end }) => first <= address && address < end);
}

function questionLink(text, action) {
  const made = link(text, action);
  made.classList.add("question");
  made.addEventListener("click", (event) => event.stopPropagation());
  return made;
}

/* A text whose words of memory open their histories. */
function withWords(text) {
  const made = document.createDocumentFragment();
  let from = 0;
  for (const found of text.matchAll(WORD)) {
    const variable = variableAt(parseInt(found[0], 16));
    if (!variable) continue;
    made.append(text.slice(from, found.index), questionLink(found[0], () => showHistory(variable)));
    from = found.index + found[0].length;
  }
  made.append(text.slice(from));
  return made;
}

/* A function's name, which opens its calls. */
function functionName(name) {
  const found = asked.functions.find((each) => each.name === name);
  return found ? questionLink(name, () => showFunction(found)) : name;
}

/* FILE:LINE, which opens what its variables were. */
function lineName(line) {
  const found = asked.lines.find((each) => each.line === line);
  if (!found) return line;
  const made = questionLink(line, () => showLine(found));
  made.classList.add("line");
  return made;
}

function placeWithName(index) {
  const { name, line } = place(index);
  const made = document.createDocumentFragment();
  made.append(...(name ? [functionName(name), "  ", lineName(line)] : [lineName(line)]));
  return made;
}

function showAnswer(head, total, word, table, rows) {
  byId("question-head").textContent = head;
  byId("question-said").textContent = plural(total, word) + (total > rows ? `; these are the last ${rows}` : "");
  byId("question").replaceChildren(table);
  byId("question-card").scrollIntoView({ block: "nearest" });
}

function pointCell(hart, count) {
  return cellOf(link(`${hart}:${commas(count)}`, () => choose(hart, count)), "n");
}

function showHistory({ title, stores, rows }) {
  const table = tableOf([["row", "n"], ["what"], ["before"], ["after"], ["stored in"]]);
  for (const [hart, count, part, old, value, at] of rows) {
    const row = element("tr");
    row.append(pointCell(hart, count), ...[part, old, value].map((text) => element("td", text)), cellOf(placeWithName(at)));
    table.append(row);
  }
  showAnswer(title, stores, "store", table, rows.length);
}

function showFunction({ title, calls, rows }) {
  const table = tableOf([["row", "n"], ["arguments"], ["result"], ["rows", "n"], ["from"]]);
  for (const [hart, count, given, result, ran, at] of rows) {
    const row = element("tr");
    row.append(pointCell(hart, count), element("td", given), element("td", result),
      element("td", ran < 0 ? "no return" : commas(ran), "n"), at < 0 ? element("td", "before the first row") : cellOf(placeWithName(at)));
    table.append(row);
  }
  showAnswer(title, calls, "call", table, rows.length);
}

function showLine({ line, passes, names, rows }) {
  const table = tableOf([["row", "n"], ...names.map((name) => [name])]);
  for (const [hart, count, ...values] of rows) {
    const row = element("tr");
    row.append(pointCell(hart, count), ...values.map((text) => element("td", text)));
    table.append(row);
  }
  showAnswer(`${line}: variables before it`, passes, "pass", table, rows.length);
}

/* What can be clicked, and how much of it the page holds. */
function showQuestions() {
  if (!D.questions) return;
  byId("question-card").hidden = false;
  byId("question-note").textContent = ["A click on an underlined word of memory tells who stored to it, one on a function's name its calls, one on a line its variables",
    `The page holds ${plural(asked.variables.length, "variable")}, ${plural(asked.functions.length, "function")} and ${plural(asked.lines.length, "line")}, of each the last ${asked.most}`,
    "zelkuma history, calls and at tell of all", ...asked.leftOut.map((said) => said.replace(/\.$/, ""))].join(". ") + ".";
}
