"use strict";

// Shows the rows that have all the words, in the order that is asked for.
function listTools(tools, list) {
  const words = tools.querySelector("input");
  const order = tools.querySelector("select");
  const rows = Array.from(list.children, (row) => ({ row, text: row.textContent.toLowerCase() }));

  function filter() {
    const wanted = words.value.toLowerCase().split(/\s+/);
    for (const { row, text } of rows) {
      row.hidden = !wanted.every((word) => text.includes(word));
    }
  }

  function sort() {
    const number = ({ row }) => Number(row.dataset[order.value]);
    rows.sort((one, other) => number(other) - number(one));
    list.append(...rows.map(({ row }) => row));
  }

  words.addEventListener("input", filter);
  order.addEventListener("change", sort);
  tools.hidden = false;
}

// Makes a call that is clicked as wide as the graph, with its callers above it. A click on the uppermost shows all again.
function graphTools(graph) {
  const calls = Array.from(graph.children, (call) => ({
    call,
    x: parseFloat(call.getAttribute("x")),
    width: parseFloat(call.getAttribute("width")),
  }));

  function zoom(to) {
    for (const { call, x, width } of calls) {
      const left = Math.max(0, (100 * (x - to.x)) / to.width);
      const right = Math.min(100, (100 * (x + width - to.x)) / to.width);
      call.style.display = right - left > 0.02 ? "" : "none";
      call.setAttribute("x", left + "%");
      call.setAttribute("width", Math.max(0, right - left) + "%");
      call.classList.toggle("thin", right - left < 0.5); // a line around it would hide it
    }
  }

  for (const it of calls) {
    it.call.addEventListener("click", () => zoom(it));
  }
  graph.classList.add("zooms");
}

for (const tools of document.querySelectorAll(".tools")) {
  listTools(tools, document.getElementById("list"));
}
for (const graph of document.querySelectorAll(".flame")) {
  graphTools(graph);
}
for (const note of document.querySelectorAll(".clicks")) {
  note.hidden = false;
}
