// The matrix: a canvas as large as its window, on which only the cells that are seen are drawn, so that 256 beside 256 concepts scroll
// as quickly as 12 beside 12.
"use strict";

const LETTERS = "=><x!";
const SAID = { "=": "equals", ">": "includes", "<": "is included in", x: "overlaps", "!": "is disjoint from" };
const data = JSON.parse(document.getElementById("data").textContent);
const at = (id) => document.getElementById(id);

// Pairs are numbered as the program counts them: those across taxonomies, the first concept with each of the later taxonomies, and so on.
const ends = [], owner = [], rowStart = [];
data.tax.reduce((end, tax, k) => {
  for (let i = 0; i < tax.count; i++) owner.push(k);
  ends.push(end + tax.count);
  return end + tax.count;
}, 0);
owner.reduce((start, tax) => {
  rowStart.push(start);
  return start + data.names.length - ends[tax];
}, 0);

function placeOf(one, other) {
  const [low, high] = one < other ? [one, other] : [other, one];
  return rowStart[low] + high - ends[owner[low]];
}

// The concepts of a pair across taxonomies.
function pairAt(place) {
  let low = 0;
  while (rowStart[low] + data.names.length - ends[owner[low]] <= place) low++;
  return [low, place - rowStart[low] + ends[owner[low]]];
}

const TURNED = { ">": "<", "<": ">" };

// The relations that a row may have to a column, as letters.
function mayBe(row, column) {
  const bits = parseInt(data.may[placeOf(row, column)], 32);
  let out = "";
  for (let k = 0; k < 5; k++) if (bits & (1 << k)) out += LETTERS[k];
  if (row < column) return out;
  out = [...out].map((letter) => TURNED[letter] || letter);
  return [...LETTERS].filter((letter) => out.includes(letter)).join("");
}

// The concepts of a taxonomy in tree order, each with its depth and where its subtree ends.
function treeOrder(tax) {
  const begin = ends[tax] - data.tax[tax].count, under = new Map();
  for (let i = begin; i < ends[tax]; i++) {
    const above = data.parent[i];
    if (!under.has(above)) under.set(above, []);
    under.get(above).push(i);
  }
  const out = [];
  const walk = (concept, depth) => {
    const item = { concept, depth, at: out.length, parent: under.has(concept) };
    out.push(item);
    for (const child of under.get(concept) || []) walk(child, depth + 1);
    item.end = out.length;
  };
  for (const root of under.get(-1) || []) walk(root, 0);
  return out;
}

const side = () => ({ tax: 0, all: [], shown: [], folded: new Set() });
const rows = side(), columns = side();
let letters = [], hidden = null;  // letters of every cell, and how many cells that are looked for stand above and left of a corner
let cursor = { row: 0, column: 0 }, held = false;

function chooseTaxonomies(rowTax, columnTax) {
  for (const [one, tax] of [[rows, rowTax], [columns, columnTax]]) {
    one.tax = tax;
    one.all = treeOrder(tax);
    one.folded = new Set();
  }
  const width = columns.all.length;
  letters = rows.all.map((row) => columns.all.map((column) => mayBe(row.concept, column.concept)));
  hidden = new Int32Array((rows.all.length + 1) * (width + 1));
  for (let r = 0; r < rows.all.length; r++) {
    for (let c = 0; c < width; c++) {
      const k = (r + 1) * (width + 1) + c + 1;
      hidden[k] = hidden[k - 1] + hidden[k - width - 1] - hidden[k - width - 2] + (isSought(r, c) ? 1 : 0);
    }
  }
  cursor = { row: 0, column: 0 };
  held = false;
  choose();
}

// What people look for: open pairs, or in a conflict the pairs of its statements.
function isSought(r, c) {
  return data.stated ? data.wrong.includes(placeOf(rows.all[r].concept, columns.all[c].concept)) : letters[r][c].length > 1;
}

// How many such cells there are where these rows cross these columns.
function soughtWithin(top, bottom, left, right) {
  const width = columns.all.length + 1;
  return hidden[bottom * width + right] - hidden[top * width + right] - hidden[bottom * width + left] + hidden[top * width + left];
}

// Those of a side that a test keeps, and what they stand under.
function withAncestors(one, keep) {
  return one.all.filter((item) => {
    for (let k = item.at; k < item.end; k++) if (keep(one.all[k])) return true;
    return false;
  });
}

function unfolded(one) {
  const out = [];
  for (let k = 0; k < one.all.length; ) {
    out.push(one.all[k]);
    k = one.folded.has(one.all[k].concept) ? one.all[k].end : k + 1;
  }
  return out;
}

function choose() {
  const text = at("name").value.trim().toLocaleLowerCase();
  const only = at("only").checked;
  const named = (item) => data.names[item.concept].toLocaleLowerCase().includes(text);
  let shownRows = unfolded(rows), shownColumns = unfolded(columns);
  if (text) {
    const namedRows = rows.all.filter(named), namedColumns = columns.all.filter(named);
    const shares = (r, c) => letters[r.at][c.at] !== "!" && letters[r.at][c.at] !== "";
    shownRows = withAncestors(rows, (r) => named(r) || namedColumns.some((c) => shares(r, c)));
    shownColumns = withAncestors(columns, (c) => named(c) || namedRows.some((r) => shares(r, c)));
  }
  if (only) {
    shownRows = shownRows.filter((r) => soughtWithin(r.at, r.end, 0, columns.all.length) > 0);
    shownColumns = shownColumns.filter((c) => soughtWithin(0, rows.all.length, c.at, c.end) > 0);
  }
  rows.shown = shownRows;
  columns.shown = shownColumns;
  cursor.row = Math.max(0, Math.min(cursor.row, rows.shown.length - 1));
  cursor.column = Math.max(0, Math.min(cursor.column, columns.shown.length - 1));
  layOut();
}

// Sizes, and drawing.
const stage = at("stage"), canvas = at("cells"), room = at("room"), pen = canvas.getContext("2d");
const FONT = "system-ui, 'DejaVu Sans', sans-serif";
const STYLE = { "=": ["#26346f", "#fff"], ">": ["#6cc3ae", "#111"], "<": ["#b99be6", "#111"], x: ["#c9502f", "#fff"], "!": ["#f3f3f1", "#999"] };
const OPEN = ["#ffe85c", "#111"];
let size = 24, headWidth = 100, headHeight = 100, printing = false;

function headSize(one, most) {
  pen.font = `bold 13px ${FONT}`;
  const widths = one.shown.map((item) => pen.measureText(data.names[item.concept]).width + item.depth * 11 + 26);
  return Math.ceil(Math.min(most, Math.max(70, ...widths)));
}

function layOut() {
  size = columns.shown.length > 60 || rows.shown.length > 60 ? 19 : 24;
  const wide = at("matrix").clientWidth;
  headWidth = headSize(rows, Math.max(110, Math.min(260, wide * 0.38)));
  headHeight = headSize(columns, 220);
  const width = headWidth + columns.shown.length * size + 1, height = headHeight + rows.shown.length * size + 1;
  stage.style.height = printing ? `${height}px` : `${Math.min(height + 18, Math.max(340, window.innerHeight * 0.76))}px`;
  stage.style.width = `${width + 18}px`;
  room.style.width = `${width}px`;
  room.style.height = `${height}px`;
  draw();
  tell();
}

function fit() {
  const scale = window.devicePixelRatio || 1;
  const width = printing ? headWidth + columns.shown.length * size + 1 : stage.clientWidth;
  const height = printing ? headHeight + rows.shown.length * size + 1 : stage.clientHeight;
  canvas.width = Math.round(width * scale);
  canvas.height = Math.round(height * scale);
  canvas.style.width = `${width}px`;
  canvas.style.height = `${height}px`;
  room.style.marginTop = `${-height}px`;
  pen.setTransform(scale, 0, 0, scale, 0, 0);
  return [width, height];
}

function draw() {
  const [width, height] = fit();
  const left = printing ? 0 : stage.scrollLeft, top = printing ? 0 : stage.scrollTop;
  pen.fillStyle = "#fff";
  pen.fillRect(0, 0, width, height);
  const firstRow = Math.floor(top / size), lastRow = Math.min(rows.shown.length, Math.ceil((top + height - headHeight) / size));
  const firstColumn = Math.floor(left / size), lastColumn = Math.min(columns.shown.length, Math.ceil((left + width - headWidth) / size));
  for (let r = firstRow; r < lastRow; r++) {
    for (let c = firstColumn; c < lastColumn; c++) drawCell(r, c, headWidth + c * size - left, headHeight + r * size - top);
  }
  drawHeads(width, height, left, top, firstRow, lastRow, firstColumn, lastColumn);
}

function drawCell(r, c, x, y) {
  const row = rows.shown[r], column = columns.shown[c], text = letters[row.at][column.at], open = text.length > 1;
  const [fill, ink] = open ? OPEN : STYLE[text] || ["#fafaf8", "#111"];
  pen.fillStyle = fill;
  pen.fillRect(x, y, size - 1, size - 1);
  const place = placeOf(row.concept, column.concept);
  if (open) frame(x, y, "#111", 1.5);
  if (data.wrong.includes(place)) frame(x, y, "#d00000", 3, r === cursor.row && c === cursor.column ? 2 : 0);
  pen.fillStyle = ink;
  pen.textAlign = "center";
  pen.textBaseline = "middle";
  const written = text.length > 3 ? "?" : text;
  pen.font = `${open ? "bold " : ""}${Math.round(size * [0.56, 0.56, 0.5, 0.42][written.length])}px ${FONT}`;
  if (text) pen.fillText(written, x + (size - 1) / 2, y + size / 2);
  if ((isFolded(rows, row) || isFolded(columns, column)) && hides(row, column)) drawCorner(x, y);
  if (r === cursor.row && c === cursor.column && !printing) frame(x, y, "#0057d8", 2.5);
}

function frame(x, y, colour, thick, inset = 0) {
  const from = inset + thick / 2;
  pen.strokeStyle = colour;
  pen.lineWidth = thick;
  pen.strokeRect(x + from, y + from, size - 1 - 2 * from, size - 1 - 2 * from);
}

const isFolded = (one, item) => one.folded.has(item.concept) && !at("name").value.trim();

function hides(row, column) {
  const bottom = isFolded(rows, row) ? row.end : row.at + 1, right = isFolded(columns, column) ? column.end : column.at + 1;
  return soughtWithin(row.at, bottom, column.at, right) > (isSought(row.at, column.at) ? 1 : 0);
}

function drawCorner(x, y) {
  pen.fillStyle = "#e08a00";
  pen.beginPath();
  pen.moveTo(x + size - 1, y + size - 11);
  pen.lineTo(x + size - 1, y + size - 1);
  pen.lineTo(x + size - 11, y + size - 1);
  pen.fill();
}

function drawHeads(width, height, left, top, firstRow, lastRow, firstColumn, lastColumn) {
  pen.fillStyle = "#fff";
  pen.fillRect(0, 0, width, headHeight);
  pen.fillRect(0, 0, headWidth, height);
  clipped(0, headHeight, headWidth, height, () => {
    for (let r = firstRow; r < lastRow; r++) {
      headName(rows, rows.shown[r], 4, headHeight + r * size - top + size / 2, headWidth - 8, r === cursor.row);
    }
  });
  clipped(headWidth, 0, width, headHeight, () => {
    for (let c = firstColumn; c < lastColumn; c++) {
      pen.save();
      pen.translate(headWidth + c * size - left + size / 2, headHeight - 4);
      pen.rotate(-Math.PI / 2);
      headName(columns, columns.shown[c], 0, 0, headHeight - 8, c === cursor.column);
      pen.restore();
    }
  });
  pen.fillStyle = "#fff";
  pen.fillRect(0, 0, headWidth, headHeight);
  pen.fillStyle = "#555";
  pen.font = `12px ${FONT}`;
  pen.textAlign = "left";
  pen.fillText(clip(`${data.tax[rows.tax].name} ↓`, headWidth - 8), 4, headHeight - 10);
  pen.textAlign = "right";
  pen.fillText(clip(`${data.tax[columns.tax].name} →`, headWidth - 8), headWidth - 6, 12);
}

function clipped(x, y, right, bottom, inside) {
  pen.save();
  pen.beginPath();
  pen.rect(x, y, right - x, bottom - y);
  pen.clip();
  inside();
  pen.restore();
}

function headName(one, item, x, y, most, chosen) {
  const indent = item.depth * 11;
  pen.textBaseline = "middle";
  pen.textAlign = "left";
  pen.fillStyle = chosen ? "#0057d8" : "#222";
  if (item.parent) {
    pen.font = `10px ${FONT}`;
    pen.fillText(isFolded(one, item) ? "▸" : "▾", x + indent, y);
  }
  pen.font = `${chosen || item.depth === 0 ? "bold " : ""}13px ${FONT}`;
  pen.fillText(clip(data.names[item.concept], most - indent - 13, one.all), x + indent + 13, y);
}

// The front of a text that is too long, or where another name has the same front, both its ends.
function clip(text, most, others = []) {
  if (pen.measureText(text).width <= most) return text;
  const signs = [...text], fits = (cut) => pen.measureText(cut).width <= most;
  const front = longest(signs.length, (count) => signs.slice(0, count).join("") + "…", fits);
  const same = others.filter((item) => data.names[item.concept].startsWith(front.slice(0, -1)));
  if (same.length < 2) return front;
  return longest(signs.length, (count) => `${signs.slice(0, Math.ceil(count / 2)).join("")}…${signs.slice(signs.length - Math.floor(count / 2)).join("")}`, fits);
}

function longest(count, cut, fits) {
  while (count > 1 && !fits(cut(count))) count--;
  return cut(count);
}
