// What the page knows: the boxes by their place, which begins with the executed ones in order.
const data = JSON.parse(document.getElementById("data").textContent);
const boxes = data.boxes;
const count = data.executed;
const lanes = data.lanes.map(() => []);
const placeOf = new Map();

boxes.forEach((box, at) => {
  box.at = at;
  box.users = [];
  placeOf.set(box.id, at);
  lanes[box.lane].push(at);
});
for (const box of boxes) {
  for (const at of box.deps) boxes[at].users.push(box.at);
}

// The places of the first and the last box of each component of two or more, and its lanes.
const frames = new Map();
for (const box of boxes) {
  if (box.frame === undefined) continue;
  const frame = frames.get(box.frame) ?? { first: box.at, lanes: [] };
  frame.last = box.at;
  frame.lanes.push(box.lane);
  frames.set(box.frame, frame);
}

// The late calls as pairs of places, and the words about each call that is not as it should be.
const latePairs = [];
for (const [kind, id, other] of data.findings ?? []) {
  const box = boxes[placeOf.get(id)];
  if (kind === "late") latePairs.push({ from: box.at, to: placeOf.get(other) });
  if (box !== undefined) (box.faults ??= []).push(kind === "reply" ? "other reply" : kind);
}

function names(places) {
  return places.map((at) => boxes[at].id);
}

function listed(words) {
  if (words.length < 3) return words.join(" and ");
  return `${words.slice(0, -1).join(", ")} and ${words.at(-1)}`;
}

function counted(number, one, many) {
  return `${number.toLocaleString("en")} ${number === 1 ? one : many}`;
}

// What became of an instance, in a few words.
function outcome(box) {
  if (box.kind === "executed") return box.reply;
  if (box.kind === "waiting") return `needs ${box.needs}`;
  return box.alone === undefined ? "in no log" : `blocks ${box.alone}, named by ${box.named}`;
}

// All of an instance in a sentence, for readers of screens.
function sentence(box) {
  const parts = [`${box.id}, ${box.kind === "executed" ? `position ${box.at}` : box.kind}`];
  if (box.faults) parts.push(box.faults.join(", "));
  if (box.ops) parts.push(box.ops.length ? box.ops.join(", ") : "no operations");
  parts.push(box.kind === "executed" ? `reply ${box.reply}` : outcome(box));
  if (box.frame) parts.push(`in the component of ${box.frame}`);
  if (box.deps.length) parts.push(`depends on ${listed(names(box.deps))}`);
  if (box.users.length) parts.push(`needed by ${listed(names(box.users))}`);
  return parts.join("; ");
}

// An element with a class and a text, or with children.
function element(tag, name, ...children) {
  const made = document.createElement(tag);
  if (name) made.className = name;
  made.append(...children);
  return made;
}
