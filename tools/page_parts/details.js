// What is known of one instance, in words.
const details = document.getElementById("details");

// The names of boxes as buttons that lead to them.
function links(places) {
  return places.map((at) => {
    const made = element("button", "link", boxes[at].id);
    made.type = "button";
    made.dataset.at = at;
    return made;
  });
}

function callWords({ call }) {
  const end = call.returned === null ? "no answer came" : `returned at ${call.returned}`;
  return `invoked at ${call.invoked}, ${end}${call.reply ? ` with ${call.reply}` : ""}`;
}

function factsOf(box) {
  const facts = [];
  const add = (name, ...children) => facts.push([name, children]);
  if (box.kind === "executed") add("Position", `${box.at}, at depth ${box.depth}`);
  if (box.kind === "waiting") add("Waits for", ...links([placeOf.get(box.needs)]));
  if (box.kind === "missing") add("Missing", "no log commits it");
  if (box.alone !== undefined) add("Blocks", blockWords(box));
  if (box.ops) add("Operations", ...opsOf(box));
  if (box.reply) add("Reply", element("code", "", box.reply));
  if (box.call) add("Call", callWords(box));
  if (box.faults) add("Found", element("span", "fault", box.faults.join(", ")));
  if (box.seq) add("Sequence number", box.seq);
  if (box.frame) add("Component", ...links(membersOf(box.frame)));
  if (box.kind !== "missing") add("Depends on", ...orNothing(links(box.deps)));
  add("Needed by", ...orNothing(links(box.users)));
  return facts;
}

function opsOf(box) {
  if (!box.ops.length) return ["none"];
  const items = box.ops.map((op) => element("li", "", element("code", "", op)));
  const made = element("ol", "ops", ...items);
  // from 0, as a reply counts them that aborts
  made.start = 0;
  return [made];
}

function orNothing(children) {
  return children.length ? children : ["nothing"];
}

function membersOf(leader) {
  const { first, last } = frames.get(leader);
  return Array.from({ length: last - first + 1 }, (_, at) => first + at);
}

function blockWords(box) {
  const waiting = counted(box.alone, "instance needs", "instances need");
  const named = counted(box.named, "instance names", "instances name");
  return `${waiting} it and no other missing one; ${named} it`;
}

function showDetails() {
  const box = boxes[selected()];
  document.getElementById("details-title").textContent = box ? `Instance ${box.id}` : "Instance";
  if (!box) {
    const words = boxes.length ? "Point at a box, or go to one by keys." : "There is none.";
    details.replaceChildren(element("p", "quiet", words));
    return;
  }
  const shown = element("dl", "");
  for (const [name, children] of factsOf(box)) {
    shown.append(element("dt", "", name), element("dd", "", ...children));
  }
  const parts = [shown];
  if (box.kind === "executed") {
    const button = element("button", "", "The store after it");
    button.type = "button";
    button.dataset.position = box.at + 1;
    parts.push(button);
  }
  details.replaceChildren(...parts);
}
