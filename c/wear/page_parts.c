#include "page_parts.h"

#include <stddef.h>

static const char colours[] =
    ":root { color-scheme: light dark; --ink: #1d2733; --paper: #fff; --soft: #4a5866; --line: #dde3e9; --rule: #8899a8;\n"
    "  --due: #c4680f; --due-text: #8f4a08; --left: #4c7ea8; --due-row: #fdf1e7; --alarm: #b3261e; --alarm-row: #fdecea; "
    "--note-row: #eef3f7; }\n"
    "@media screen and (prefers-color-scheme: dark) { :root { --ink: #e4e9ee; --paper: #14191f; --soft: #a9b5c1; --line: "
    "#2c3640;\n"
    "  --rule: #66788a; --due: #e8963c; --due-text: #e8963c; --left: #6aa0cf; --due-row: #2e2318; --alarm: #ff8a80; --alarm-row: "
    "#3a1f1e;\n"
    "  --note-row: #1d2630; } }\n";

static const char blocks[] =
    "* { box-sizing: border-box; }\n"
    "body { font: 15px/1.45 system-ui, sans-serif; color: var(--ink); background: var(--paper); margin: 1.5rem auto;\n"
    "  max-width: 1180px; padding: 0 1rem; }\n"
    "h1 { font-size: 1.5em; margin: 0 0 .3rem; }\nh2 { font-size: 1em; margin: 0 0 .2rem; }\n"
    "p { margin: .3rem 0 .9rem; color: var(--soft); }\n"
    ".told { border-left: 4px solid var(--rule); background: var(--note-row); padding: .5rem .8rem; margin: 0 0 .9rem; }\n"
    ".told.unread, .told.gone { border-color: var(--alarm); background: var(--alarm-row); }\n"
    ".told.unread h2, .told.gone h2 { color: var(--alarm); }\n"
    ".told ul { margin: 0; padding-left: 1.1rem; }\n.told li { overflow-wrap: anywhere; }\n"
    ".controls { display: flex; flex-wrap: wrap; gap: .5rem 1.2rem; margin: 0 0 .6rem; }\n"
    ".controls[hidden] { display: none; }\n"
    ".controls label { display: flex; gap: .4rem; align-items: center; max-width: min(100%, 28rem); }\n"
    ".controls select { font: inherit; min-width: 0; max-width: 100%; padding: .25rem .4rem; color: inherit;\n"
    "  background: var(--paper); border: 1px solid var(--rule); border-radius: 4px; }\n"
    "#shown:empty { display: none; }\n#shown { color: var(--alarm); font-weight: 600; }\n"
    ".legend { display: flex; flex-wrap: wrap; gap: .2rem 1.2rem; margin: 0 0 .5rem; font-size: .87em; }\n"
    ".legend svg { width: 12px; height: 12px; margin-right: .35rem; vertical-align: -1px; }\n"
    "rect.due { fill: var(--due); }\nrect.left { fill: var(--left); }\n"
    "rect.run { fill: none; stroke: var(--ink); stroke-width: 1.5; }\npath.on { fill: var(--ink); }\n"
    "line { stroke: var(--rule); stroke-dasharray: 3 3; }\nline.zero { stroke-dasharray: none; }\n"
    "svg text { fill: var(--soft); font-size: 12px; }\n";

static const char table[] =
    "table { border-collapse: collapse; width: 100%; }\n"
    "caption { text-align: left; color: var(--soft); font-size: .87em; padding: 0 0 .3rem; }\n"
    "th, td { text-align: right; padding: .3rem .45rem; border-bottom: 1px solid var(--line); vertical-align: top;\n"
    "  font-variant-numeric: tabular-nums; }\n"
    "thead th { font-weight: 600; border-bottom: 2px solid var(--rule); vertical-align: bottom; }\n"
    "tfoot td { border-bottom: 0; }\ntbody th { font-weight: 400; }\n"
    ".name { text-align: left; overflow-wrap: anywhere; width: 42%; }\n"
    "svg.bar, svg.axis { display: block; width: 100%; height: 20px; overflow: visible; }\n"
    ".state { display: block; font-size: .87em; color: var(--soft); }\n.state b { color: var(--alarm); }\n"
    "td.figure { white-space: nowrap; }\n"
    "tr.due td, tr.due th { background: var(--due-row); }\ntr.due td.services { font-weight: 700; color: var(--due-text); }\n"
    "tr.later { display: none; }\n.visually-hidden { position: absolute; width: 1px; height: 1px; overflow: hidden;\n"
    "  clip-path: inset(50%); white-space: nowrap; }\n";

static const char narrow[] = "@media screen and (max-width: 820px) {\n"
                             "  table, thead, tbody, tfoot, caption, thead tr, tfoot tr { display: block; }\n"
                             "  thead th, tfoot td { display: none; }\n"
                             "  thead th.name, tfoot td.name { display: block; width: 100%; border-bottom: 0; }\n"
                             "  tbody tr { display: grid; grid-template-columns: repeat(auto-fit, minmax(6.2rem, 1fr)); "
                             "border-top: 1px solid var(--rule);\n"
                             "    padding: .45rem 0; }\n"
                             "  tbody tr.due { background: var(--due-row); }\n  tbody tr.later { display: none; }\n"
                             "  th, td { border-bottom: 0; text-align: left; padding: .12rem .4rem; }\n"
                             "  tbody th.name { grid-row: 1; grid-column: 1 / -1; width: auto; font-weight: 600; }\n"
                             "  td[data-label]::before { content: attr(data-label); display: block; font-size: .8em; color: "
                             "var(--soft); font-weight: 400; }\n"
                             "  .state { font-weight: 400; }\n"
                             "}\n";

static const char paper[] =
    "@page { size: A4; margin: 12mm; }\n"
    "@media print { body { margin: 0; padding: 0; max-width: none; font-size: 9pt; print-color-adjust: exact;\n"
    "    -webkit-print-color-adjust: exact; }\n"
    "  .controls { display: none; }\n  .told, tbody tr { break-inside: avoid; }\n"
    "  .told { padding: .2rem .6rem; margin-bottom: .5rem; }\n"
    "  th, td { padding: .15rem .25rem; }\n  thead { display: table-header-group; }\n  tfoot { display: table-footer-group; }\n"
    "  svg.bar, svg.axis { height: 18px; }\n  svg text { font-size: 10px; } }\n";

const char *const wear_page_style[] = {colours, blocks, table, narrow, paper, NULL};

static const char controls[] =
    "<form class=\"controls\" id=\"controls\" hidden>\n"
    "<label>Sort by <select id=\"sort\"><option value=\"order\">to open first</option><option value=\"station\">station and pump"
    "</option><option value=\"hours\">run hours</option><option value=\"worn\">hours since service</option>"
    "<option value=\"starts\">starts</option><option value=\"each\">hours a start</option></select></label>\n"
    "<label>Station <select id=\"station\"><option value=\"\">all</option></select></label>\n"
    "<label>Show <select id=\"due\"><option value=\"\">all pumps</option><option value=\"due\">service due</option>"
    "<option value=\"not\">no service due</option><option value=\"running\">running</option>"
    "<option value=\"reset\">exchanged or reset</option></select></label>\n"
    "</form>\n<p id=\"shown\" role=\"status\"></p>\n";

const char *const wear_page_controls[] = {controls, NULL};

static const char script[] =
    "<script>\n(function () {\n"
    "  'use strict';\n"
    "  var body = document.querySelector('#pumps tbody'), rows = Array.prototype.slice.call(body.rows);\n"
    "  var sort = document.getElementById('sort'), station = document.getElementById('station');\n"
    "  var due = document.getElementById('due'), shown = document.getElementById('shown'), seen = {};\n"
    "  rows.forEach(function (row) {\n"
    "    var name = row.dataset.station, option;\n"
    "    if (Object.prototype.hasOwnProperty.call(seen, name)) { return; }\n"
    "    seen[name] = true;\n"
    "    option = document.createElement('option');\n"
    "    option.value = name; option.textContent = name;\n"
    "    station.appendChild(option);\n"
    "  });\n"
    "  function number(row, key) { return Number(row.dataset[key]); }\n"
    "  function compare(a, b) {\n"
    "    var key = sort.value, names = a.dataset.station.localeCompare(b.dataset.station);\n"
    "    if (key === 'station') { return names || number(a, 'pump') - number(b, 'pump'); }\n"
    "    if (key === 'order') { return number(a, 'order') - number(b, 'order'); }\n"
    "    return number(b, key) - number(a, key) || number(a, 'order') - number(b, 'order');\n"
    "  }\n"
    "  function wanted(row) {\n"
    "    var set = row.dataset;\n"
    "    if (station.value && set.station !== station.value) { return false; }\n"
    "    if (due.value === 'due') { return number(row, 'due') > 0; }\n"
    "    if (due.value === 'not') { return number(row, 'due') === 0; }\n"
    "    return !due.value || set.state.indexOf(due.value) >= 0;\n"
    "  }\n"
    "  function show() {\n"
    "    var count = 0;\n"
    "    rows.sort(compare).forEach(function (row) {\n"
    "      var want = wanted(row);\n"
    "      row.classList.toggle('later', !want);\n"
    "      count += want ? 1 : 0;\n"
    "      body.appendChild(row);\n"
    "    });\n"
    "    shown.textContent = count === rows.length ? '' : count + ' of ' + rows.length + ' pumps shown: '\n"
    "      + [station.value && 'station ' + station.value, due.value && due.selectedOptions[0].text]\n"
    "        .filter(Boolean).join(', ') + '. The others are hidden.';\n"
    "  }\n"
    "  [sort, station, due].forEach(function (choice) { choice.addEventListener('change', show); });\n"
    "  document.getElementById('controls').addEventListener('submit', function (event) { event.preventDefault(); });\n"
    "  document.getElementById('controls').hidden = false;\n"
    "  show();\n"
    "}());\n</script>\n";

const char *const wear_page_script[] = {script, NULL};
