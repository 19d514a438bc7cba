// What is said of a pair below the matrix, the mouse and the keys, and the choice of a world.
"use strict";

function piece(name, text, kind) {
  const out = document.createElement(name);
  out.textContent = text;
  if (kind) out.className = kind;
  return out;
}

function named(concept) {
  const out = piece("span", "", "c");
  out.append(piece("bdi", data.names[concept], "cn"), " ", piece("span", data.tax[owner[concept]].name, `tax t${owner[concept]}`));
  return out;
}

const KINDS = { "=": "eq", ">": "in", "<": "by", x: "ov", "!": "di" };

function badge(text) {
  const out = piece("span", "", text.length > 1 ? "badge open" : "badge");
  for (const letter of text) out.append(piece("b", letter, `r ${KINDS[letter]}`));
  return out;
}

// Relations as a sentence has them: `equals, includes or overlaps`.
function inWords(text) {
  const words = [...text].map((letter) => SAID[letter]);
  if (words.length === LETTERS.length) return "may have any relation to";
  return words.length < 2 ? words.join("") : `${words.slice(0, -1).join(", ")} or ${words[words.length - 1]}`;
}

function sentenceOf(row, column, text) {
  const line = piece("p", "", "pair"), said = inWords(text);
  if (said) line.append(badge(text), " ", named(row), ` ${said} `, named(column));
  else line.append(data.said[placeOf(row, column)] ? "No one relation is stated of " : "Nothing is stated of ", named(row), " and ", named(column), ".");
  return line;
}

// In how many worlds an open pair has each relation.
function shares(place, turned) {
  const counts = data.counts[place];
  if (!counts) return null;
  const line = piece("p", `Of ${data.total.toLocaleString("en")} possible worlds:`);
  for (const letter of LETTERS) {
    const count = counts[turned ? TURNED[letter] || letter : letter];
    if (count) line.append(" ", badge(letter), ` in ${count.toLocaleString("en")}`);
  }
  return line;
}

function statementList(numbers) {
  const list = piece("ul", "", "plain");
  for (const number of numbers) {
    const [line, text] = data.statements[number - 1];
    const item = piece("li", `line ${line}: `);
    item.append(piece("code", text));
    list.append(item);
  }
  return list;
}

function reasonsOf(place, text) {
  const out = [], said = data.said[place], why = data.why[place];
  if (said) out.push(piece("p", "Stated:"), statementList(said));
  if (why && why.length) out.push(piece("p", text.length > 1 ? "That no other relation is possible follows from:" : "Follows from:"), statementList(why));
  else if (why) out.push(piece("p", "Follows from the rows and the rules alone."));
  else if (!data.stated && !data.known) out.push(piece("p", "In the worlds that were listed; more may be possible.", "small"));
  else if (!said && text && text.length < 5 && !data.stated) out.push(piece("p", "Follows from other statements; from which was not looked into.", "small"));
  return out;
}

function tell() {
  const told = at("told"), row = rows.shown[cursor.row], column = columns.shown[cursor.column];
  told.className = held ? "script held" : "script";
  if (!row || !column) {
    told.replaceChildren(piece("p", at("name").value ? "No name has this in it, or there is nothing to see there." : "There is nothing open between these two."));
    return;
  }
  const text = letters[row.at][column.at], place = placeOf(row.concept, column.concept);
  const lines = [sentenceOf(row.concept, column.concept, text), shares(place, row.concept > column.concept), ...reasonsOf(place, text)];
  if (hides(row, column)) lines.push(piece("p", `Folded: ${data.stated ? "pairs of the conflict are" : "open pairs are"} below these two.`));
  told.replaceChildren(...lines.filter(Boolean));
}

function moveTo(row, column, hold) {
  cursor.row = Math.max(0, Math.min(row, rows.shown.length - 1));
  cursor.column = Math.max(0, Math.min(column, columns.shown.length - 1));
  if (hold !== undefined) held = hold;
  draw();
  tell();
}

function intoView() {
  const x = cursor.column * size, y = cursor.row * size;
  const width = stage.clientWidth - headWidth - size, height = stage.clientHeight - headHeight - size;
  if (x < stage.scrollLeft || x > stage.scrollLeft + width) stage.scrollLeft = x - width / 2;
  if (y < stage.scrollTop || y > stage.scrollTop + height) stage.scrollTop = y - height / 2;
}

function fold(one, item) {
  if (!item || !item.parent) return;
  if (!one.folded.delete(item.concept)) one.folded.add(item.concept);
  choose();
}

// The next pair that is looked for, in whatever is folded; a filter by name is taken away.
function goToSought(step) {
  const height = rows.all.length, width = columns.all.length, cells = height * width;
  const row = rows.shown[cursor.row], column = columns.shown[cursor.column];
  const begin = row && column ? row.at * width + column.at : 0;
  for (let k = 1; k <= cells; k++) {
    const cell = (begin + step * k + 2 * cells) % cells, r = Math.floor(cell / width), c = cell % width;
    if (!isSought(r, c)) continue;
    showCell(r, c);
    return;
  }
}

// A cell by its places in the trees, unfolded and not filtered away.
function showCell(r, c) {
  at("name").value = "";
  for (const [one, place] of [[rows, r], [columns, c]]) {
    for (const item of one.all) if (item.at < place && place < item.end) one.folded.delete(item.concept);
  }
  choose();
  moveTo(rows.shown.findIndex((item) => item.at === r), columns.shown.findIndex((item) => item.at === c), true);
  intoView();
}

// What a link elsewhere on the page leads to.
function showPlace(place) {
  let [row, column] = pairAt(place);
  const shown = [rows.tax, columns.tax];
  if (shown.includes(owner[row]) && shown.includes(owner[column])) {
    if (owner[row] !== rows.tax) [row, column] = [column, row];
  } else {
    chooseTaxonomies(owner[row], owner[column]);
    at("rows").value = String(owner[row]);
    at("columns").value = String(owner[column]);
  }
  showCell(rows.all.findIndex((item) => item.concept === row), columns.all.findIndex((item) => item.concept === column));
}

const MOVES = {
  ArrowUp: [-1, 0], ArrowDown: [1, 0], ArrowLeft: [0, -1], ArrowRight: [0, 1],
  PageUp: [-10, 0], PageDown: [10, 0], Home: [0, -9999], End: [0, 9999],
};

function onKey(event) {
  if (event.ctrlKey || event.altKey || event.metaKey) return;
  const move = MOVES[event.key], key = event.key.toLowerCase();
  if (move) {
    moveTo(cursor.row + move[0], cursor.column + move[1], true);
    intoView();
  } else if (key === "n" || key === "p") goToSought(key === "n" ? 1 : -1);
  else if (key === "f") fold(rows, rows.shown[cursor.row]);
  else if (key === "c") fold(columns, columns.shown[cursor.column]);
  else if (key === "enter") moveTo(cursor.row, cursor.column, !held);
  else return;
  event.preventDefault();
}

// Where the mouse is: a row and a column, each -1 on a head.
function under(event) {
  const box = canvas.getBoundingClientRect(), x = event.clientX - box.left, y = event.clientY - box.top;
  const row = y < headHeight ? -1 : Math.floor((y - headHeight + stage.scrollTop) / size);
  const column = x < headWidth ? -1 : Math.floor((x - headWidth + stage.scrollLeft) / size);
  return [row, column];
}

function onClick(event) {
  const [row, column] = under(event);
  if (row < 0 && column < 0) return;
  if (column < 0) fold(rows, rows.shown[row]);
  else if (row < 0) fold(columns, columns.shown[column]);
  else if (row < rows.shown.length && column < columns.shown.length) {
    moveTo(row, column, !(held && row === cursor.row && column === cursor.column));
  }
}

function onMove(event) {
  const [row, column] = under(event), inside = row >= 0 && column >= 0 && row < rows.shown.length && column < columns.shown.length;
  canvas.style.cursor = inside ? "crosshair" : "pointer";
  if (!held && inside && (row !== cursor.row || column !== cursor.column)) moveTo(row, column);
}

function foldTo(level) {
  for (const one of [rows, columns]) one.folded = new Set(one.all.filter((item) => item.parent && item.depth >= level).map((item) => item.concept));
  choose();
}

function levelShown() {
  const folded = [...rows.all, ...columns.all].filter((item) => rows.folded.has(item.concept) || columns.folded.has(item.concept));
  return folded.length ? Math.min(...folded.map((item) => item.depth)) : 99;
}

function offerTaxonomies() {
  for (const [select, chosen] of [[at("rows"), data.start[0]], [at("columns"), data.start[1]]]) {
    data.tax.forEach((tax, k) => select.append(new Option(tax.title ? `${tax.name} ${tax.title}` : tax.name, k, k === chosen, k === chosen)));
    select.addEventListener("change", () => {
      const other = select === at("rows") ? at("columns") : at("rows");
      if (other.value === select.value) other.value = String((Number(select.value) + 1) % data.tax.length);
      chooseTaxonomies(Number(at("rows").value), Number(at("columns").value));
    });
  }
}

function onPrint(begin) {
  const small = rows.shown.length <= 64 && columns.shown.length <= 64;
  stage.classList.toggle("unprinted", begin && !small);
  printing = begin && small;
  layOut();
}

function listen() {
  stage.addEventListener("scroll", draw);
  stage.addEventListener("keydown", onKey);
  canvas.addEventListener("click", onClick);
  canvas.addEventListener("mousemove", onMove);
  at("name").addEventListener("input", choose);
  at("only").addEventListener("change", choose);
  at("fold").addEventListener("click", () => foldTo(0));
  at("level").addEventListener("click", () => foldTo(levelShown() + 1));
  at("unfold").addEventListener("click", () => foldTo(99));
  at("next").addEventListener("click", () => (goToSought(1), stage.focus()));
  document.addEventListener("click", (event) => {
    const link = event.target.closest("[data-place]");
    if (!link) return;
    event.preventDefault();
    showPlace(Number(link.dataset.place));
    stage.scrollIntoView({ block: "center" });
    stage.focus({ preventScroll: true });
  });
  window.addEventListener("resize", layOut);
  window.addEventListener("beforeprint", () => onPrint(true));
  window.addEventListener("afterprint", () => onPrint(false));
}

// One world at a time.
function showView(chosen) {
  const views = [...document.querySelectorAll(".view")], k = (chosen + views.length) % views.length;
  views.forEach((view, place) => view.classList.toggle("away", place !== k));
  at("world").value = String(k);
}

function startViews() {
  const views = [...document.querySelectorAll(".view")];
  if (views.length < 2) return;
  views.forEach((view, k) => at("world").append(new Option(view.dataset.title, k)));
  at("world").addEventListener("change", () => showView(Number(at("world").value)));
  at("before").addEventListener("click", () => showView(Number(at("world").value) - 1));
  at("after").addEventListener("click", () => showView(Number(at("world").value) + 1));
  showView(0);
}

document.documentElement.classList.add("lively");
offerTaxonomies();
listen();
chooseTaxonomies(...data.start);
// beyond what a screen holds, the upper levels come first
if (rows.all.length + columns.all.length > 160) {
  let level = 1;
  const countAt = (one) => one.all.filter((item) => item.depth <= level).length;
  while (level < 9 && countAt(rows) + countAt(columns) < 80) level++;
  foldTo(level);
}
startViews();
// the first thing to look at is told of before anything is pointed at
const first = rows.shown.findIndex((r) => columns.shown.some((c) => isSought(r.at, c.at)));
if (first >= 0) moveTo(first, columns.shown.findIndex((c) => isSought(rows.shown[first].at, c.at)));
