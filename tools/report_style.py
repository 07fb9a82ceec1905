"""How a report looks, on a screen and on paper, and the script in it. No program; report_page imports it.

The script only adds to what stands there: buttons that sort in the heads of tables, and a choice of one summary in place of a list to open.
"""

STYLE = """
:root { color-scheme: light; }
* { box-sizing: border-box; }
body { margin: 0 auto; padding: 0 1rem 4rem; max-width: 76rem; background: #fff; color: #1a1a1a;
  font: 1rem/1.5 Arial, "Liberation Sans", "DejaVu Sans", sans-serif; overflow-wrap: break-word; }
h1 { font-size: 1.75rem; line-height: 1.2; margin: 1.5rem 0 .5rem; overflow-wrap: anywhere; }
h2 { font-size: 1.375rem; line-height: 1.25; margin: 3rem 0 .75rem; padding-top: .75rem; border-top: 2px solid #1b5e9e; }
h3 { font-size: 1.125rem; margin: 2rem 0 .5rem; }
p, li { max-width: 46rem; }
a { color: #0b4f8a; }
a:focus-visible, button:focus-visible, select:focus-visible, summary:focus-visible, .scroll:focus-visible {
  outline: 3px solid #b34700; outline-offset: 2px; }
.skip { position: absolute; left: -100rem; }
.skip:focus { left: 1rem; top: .5rem; background: #fff; padding: .5rem; z-index: 1; }
.hidden { position: absolute; width: 1px; height: 1px; overflow: hidden; clip-path: inset(50%); white-space: nowrap; margin: 0; }
nav ol { columns: 20rem; padding-left: 1.5rem; margin: 1rem 0; }
nav li { break-inside: avoid; padding: .125rem 0; }
dl { margin: 0; }
dl div { display: grid; grid-template-columns: 12rem minmax(0, 1fr); gap: 0 1rem; padding: .25rem 0; border-bottom: 1px solid #ddd; }
dt { color: #4d4d4d; } dd { margin: 0; overflow-wrap: anywhere; }
@media (max-width: 34rem) { dl div { grid-template-columns: minmax(0, 1fr); } }
.pictures { display: grid; grid-template-columns: repeat(auto-fit, minmax(min(100%, 24rem), 1fr)); gap: 1rem 2rem; align-items: start; }
figure { margin: 0 0 1rem; max-width: 31rem; min-width: 0; }
figcaption { color: #4d4d4d; font-size: .875rem; margin-top: .25rem; }
svg.picture { display: block; width: 100%; height: auto; font: 14px Arial, "Liberation Sans", "DejaVu Sans", sans-serif; fill: #1a1a1a; }
svg .m { text-anchor: middle; } svg .e { text-anchor: end; }
svg .g { stroke: #ddd; fill: none; } svg .a { stroke: #4d4d4d; fill: none; }
svg .s { fill: none; stroke-width: 1.5; stroke-dasharray: 4 3; }
svg.key { vertical-align: middle; } svg.key path:first-child { stroke-width: 2; fill: none; }
.legend { list-style: none; padding: 0; margin: .5rem 0; display: flex; flex-wrap: wrap; gap: .25rem 1.25rem; font-size: .875rem; max-width: none; }
.legend li { overflow-wrap: anywhere; }
.scroll { overflow-x: auto; margin: .75rem 0; }
table { border-collapse: collapse; font-size: .875rem; font-variant-numeric: tabular-nums; }
caption { text-align: left; color: #4d4d4d; padding: .25rem 0; }
caption span { position: sticky; left: 0; display: inline-block; max-width: calc(100vw - 2rem); }
th, td { padding: .25rem 0; text-align: left; vertical-align: top; border-bottom: 1px solid #ddd; }
thead th { vertical-align: bottom; border-bottom: 2px solid #1a1a1a; }
th.n, td.n { text-align: right; padding-left: .75rem; } tbody .n { white-space: nowrap; }
tbody th { font-weight: normal; } td:last-child:not(.n) { min-width: 17rem; } td:not(.n), thead th:not(.n) { padding-left: .75rem; }
th:first-child, th.n:first-child { text-align: left; padding-left: 0; }
.sums td:last-child { font-family: "DejaVu Sans Mono", monospace; font-size: .75rem; overflow-wrap: anywhere; min-width: 16rem; }
th button { font: inherit; color: inherit; background: none; border: 0; padding: .25rem 0; margin: 0; text-align: inherit; cursor: pointer; }
th button::after { content: "\\a0\\2195"; color: #4d4d4d; } th button:hover { text-decoration: underline; }
th[aria-sort=ascending] button::after { content: "\\a0\\2191"; color: #1a1a1a; }
th[aria-sort=descending] button::after { content: "\\a0\\2193"; color: #1a1a1a; }
.more { color: #4d4d4d; font-size: .875rem; margin-top: 0; }
.choice label { display: block; margin: .5rem 0; } .choice select { font: inherit; padding: .25rem; max-width: 100%; }
summary { cursor: pointer; padding: .25rem 0; overflow-wrap: anywhere; }
.chosen summary { display: none; } .chosen details:not([open]) { display: none; }
@page { size: A4; margin: 15mm 12mm; }
@media print {
  body { max-width: none; padding: 0; font-size: 10pt; }
  nav, .skip, .choice label { display: none; }
  .chosen summary { display: block; list-style: none; font-weight: bold; } details:not([open]) { display: none; }
  section { break-before: page; } section:first-of-type { break-before: auto; }
  h2 { margin-top: 0; } h1, h2, h3, caption { break-after: avoid; }
  figure, tr, .legend, li, dl div { break-inside: avoid; } thead { display: table-header-group; break-inside: avoid; }
  .pictures { grid-template-columns: 1fr 1fr; gap: 4mm 6mm; }
  th button { display: contents; }  /* a head with a button in it would not be printed on each page */
  .scroll { overflow: visible; } caption span { position: static; max-width: none; } table { font-size: 8pt; } th button::after { content: none !important; }
  a { color: inherit; text-decoration: none; }
}
"""

SCRIPT = """
"use strict";
(function () {
  var said = document.getElementById("said");
  function text(row, column) { return row.cells[column].textContent; }
  function amount(row, column) {
    var value = parseFloat(text(row, column).replace(/,/g, ""));
    return isNaN(value) ? -1 : value;
  }
  function sort(table, head) {
    var column = head.cellIndex, numbers = head.classList.contains("n"), body = table.tBodies[0];
    var before = head.getAttribute("aria-sort");
    var down = before ? before === "ascending" : numbers;
    var rows = Array.from(body.rows);
    rows.sort(function (one, other) {
      var order = numbers ? amount(one, column) - amount(other, column)
        : text(one, column).localeCompare(text(other, column), "en", { numeric: true });
      return down ? -order : order;
    });
    rows.forEach(function (row) { body.appendChild(row); });
    Array.from(table.tHead.rows[0].cells).forEach(function (cell) { cell.removeAttribute("aria-sort"); });
    head.setAttribute("aria-sort", down ? "descending" : "ascending");
    said.textContent = "Sorted by " + head.textContent + (down ? ", greatest or last first" : ", least or first first");
  }
  document.querySelectorAll("table.sortable").forEach(function (table) {
    Array.from(table.tHead.rows[0].cells).forEach(function (head) {
      var button = document.createElement("button");
      button.type = "button";
      button.textContent = head.textContent;
      head.replaceChildren(button);
      button.addEventListener("click", function () { sort(table, head); });
    });
  });
  document.querySelectorAll(".choice").forEach(function (choice) {
    var all = Array.from(choice.querySelectorAll("details"));
    if (all.length < 2) { return; }
    var label = document.createElement("label"), select = document.createElement("select");
    label.textContent = choice.dataset.name + ": ";
    label.appendChild(select);
    all.forEach(function (one, at) { select.add(new Option(one.querySelector("summary").textContent, String(at))); });
    select.addEventListener("change", function () {
      all.forEach(function (one, at) { one.open = String(at) === select.value; });
    });
    choice.prepend(label);
    choice.classList.add("chosen");
  });
}());
"""
