// The table, filtered by a part of the path and by verdicts, and sorted by a column. What is chosen stands in the address,
// so that it can be linked to and found again. Without this file the table is whole, and what fails stands first.
"use strict";

const form = document.getElementById("filter");
const sought = document.getElementById("name");
const shown = document.getElementById("shown");
const table = document.getElementById("scripts");
const body = table.tBodies[0];
const boxes = [...form.querySelectorAll("input[name=verdict]")];
const heads = [...table.tHead.rows[0].cells];
const verdicts = [];
const rows = [...body.rows].map((row) => {
  const [path, verdict, line, reason] = [...row.cells].map((cell) => cell.textContent);
  const kind = row.dataset.verdict;
  if (!verdicts.includes(kind)) verdicts.push(kind);
  // What rows are sorted by, column by column; null where a cell is empty.
  const keys = [path, `${verdicts.indexOf(kind)} ${verdict}`, line ? parseInt(line, 10) : null, reason || null];
  return { row, keys, path: path.toLowerCase(), verdict: kind };
});
// The column by which the table is sorted, counted from 1 and below 0 from the end; 0 where it stands as it was made.
let sorted = 0;

function filter() {
  const part = sought.value.toLowerCase();
  const chosen = new Set(boxes.filter((box) => box.checked).map((box) => box.value));
  let count = 0;
  for (const { row, path, verdict } of rows) {
    const fits = path.includes(part) && (chosen.size === 0 || chosen.has(verdict));
    row.hidden = !fits;
    count += fits;
  }
  shown.textContent = count === rows.length ? "" : `${count} of ${rows.length} shown`;
}

// An empty cell comes last, from whichever end the others are sorted.
function compare(one, other) {
  if (one === null || other === null) return (one === null) - (other === null);
  return Math.sign(sorted) * (one < other ? -1 : one > other ? 1 : 0);
}

function sort() {
  const column = Math.abs(sorted) - 1;
  const order = [...rows];
  if (sorted) order.sort((one, other) => compare(one.keys[column], other.keys[column]));
  const all = document.createDocumentFragment();
  for (const { row } of order) all.append(row);
  body.append(all);
  heads.forEach((head, place) => {
    head.setAttribute("aria-sort", place !== column ? "none" : sorted > 0 ? "ascending" : "descending");
  });
}

function remember() {
  const chosen = new URLSearchParams();
  if (sought.value) chosen.set("name", sought.value);
  for (const box of boxes) if (box.checked) chosen.append("verdict", box.value);
  if (sorted) chosen.set("sort", sorted);
  const words = chosen.toString();
  history.replaceState(null, "", words ? `#${words}` : location.pathname);
}

function recall() {
  const chosen = new URLSearchParams(location.hash.slice(1));
  if (!["name", "verdict", "sort"].some((word) => chosen.has(word))) return;
  sought.value = chosen.get("name") ?? "";
  const kinds = new Set(chosen.getAll("verdict"));
  for (const box of boxes) box.checked = kinds.has(box.value);
  const column = parseInt(chosen.get("sort") ?? "0", 10);
  sorted = Math.abs(column) <= heads.length ? column : 0;
}

// The head of each column sorts by it, wherever it is clicked, at a second press from the end, and at a third as it was. The
// button in it is for keys, whose press the head hears too.
heads.forEach((head, place) => {
  const button = document.createElement("button");
  button.type = "button";
  button.append(...head.childNodes);
  head.append(button);
  head.addEventListener("click", () => {
    const column = place + 1;
    sorted = sorted === column ? -column : sorted === -column ? 0 : column;
    sort();
    remember();
  });
});
form.addEventListener("input", () => {
  filter();
  remember();
});
form.addEventListener("submit", (event) => event.preventDefault());
window.addEventListener("hashchange", () => {
  recall();
  filter();
  sort();
});
document.addEventListener("keydown", (event) => {
  if (event.key === "/" && document.activeElement !== sought) {
    event.preventDefault();
    sought.focus();
    sought.select();
  } else if (event.key === "Escape") {
    form.reset();
    filter();
    remember();
  }
});

table.classList.add("sorted");
recall();
form.hidden = false;
filter();
if (sorted) sort();
