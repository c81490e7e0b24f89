// The same content as a table of texts, which is made when it is opened.
const HEADS = ["Position", "Instance", "Operations", "Reply", "Depends on", "Needed by",
  "Component", "Writes"];

function listCells(box) {
  const faults = box.faults ? ` (${box.faults.join(", ")})` : "";
  return [
    box.kind === "executed" ? `${box.at}` : box.kind,
    box.id,
    box.ops ? box.ops.join(", ") : "",
    outcome(box) + faults,
    names(box.deps).join(", "),
    names(box.users).join(", "),
    box.frame ?? "",
    writeWords(box),
  ];
}

function listRow(box) {
  const cells = listCells(box).map((words, at) => element(at === 1 ? "th" : "td", "", words));
  cells[1].scope = "row";
  return element("tr", "", ...cells);
}

function makeList() {
  const head = element("tr", "", ...HEADS.map((words) => element("th", "", words)));
  for (const cell of head.cells) cell.scope = "col";
  const body = element("tbody", "", ...boxes.map(listRow));
  return element("table", "", element("thead", "", head), body);
}

document.getElementById("list").addEventListener("toggle", (event) => {
  const room = event.target.querySelector(".rows");
  if (event.target.open && !room.firstChild) room.append(makeList());
});
