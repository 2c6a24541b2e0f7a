// Columns that sort by a click, and what a link leads to is opened. The page is whole without it.
(function () {
  function value(row, index) {
    var cell = row.cells[index], kept = cell.getAttribute("data-value");
    return kept === null ? cell.textContent.toLowerCase() : Number(kept);
  }
  function sort(head) {
    var index = head.cellIndex, body = head.closest("table").tBodies[0], rows = Array.from(body.rows);
    var falls = head.getAttribute("aria-sort") !== "descending";
    Array.from(head.parentNode.cells).forEach(function (it) { it.removeAttribute("aria-sort"); });
    head.setAttribute("aria-sort", falls ? "descending" : "ascending");
    rows.sort(function (one, other) {
      var a = value(one, index), b = value(other, index), sign = falls ? -1 : 1;
      return a === b ? 0 : a > b ? sign : -sign;
    });
    rows.forEach(function (it) { body.appendChild(it); });
  }
  document.querySelectorAll("th[data-sorts]").forEach(function (head) {
    head.addEventListener("click", function () { sort(head); });
  });
  function open() {
    var it = document.getElementById(decodeURIComponent(location.hash.slice(1)));
    if (it === null) { return; }
    for (var at = it; at !== null; at = at.parentElement) { if (at.tagName === "DETAILS") { at.open = true; } }
    it.scrollIntoView({ block: "center" });
  }
  window.addEventListener("hashchange", open);
  if (location.hash) { open(); }
})();
