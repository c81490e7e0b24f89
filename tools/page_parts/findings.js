// What epx found: which missing instances block most, and what is wrong of calls.
function fill(id, words, items) {
  const section = document.getElementById(id);
  section.hidden = false;
  section.querySelector("p").textContent = words;
  section.querySelector("ul").replaceChildren(...items);
}

function idOrLink(id) {
  return placeOf.has(id) ? links([placeOf.get(id)])[0] : id;
}

function showBlockers() {
  if (data.several === undefined) return;
  const missing = boxes.filter((box) => box.alone !== undefined);
  missing.sort((a, b) => b.alone - a.alone || b.named - a.named || a.at - b.at);
  const several = counted(data.several, "instance waits", "instances wait");
  const all = `${several} for more than one missing instance.`;
  const items = missing.map((box) => element("li", "", ...links([box.at]), `: ${blockWords(box)}`));
  fill("blockers", missing.length ? all : "Nothing waits.", items);
}

function findingItem([kind, id, other]) {
  const item = element("li", "", idOrLink(id));
  if (kind === "late") {
    const times = [boxes[placeOf.get(id)].call.returned, boxes[placeOf.get(other)].call.invoked];
    item.append(` is late: it had returned at ${times[0]}, before `, idOrLink(other),
      ` was invoked at ${times[1]}, and is executed after it.`);
  } else if (kind === "reply") {
    const box = boxes[placeOf.get(id)];
    item.append(` has another reply: its client got ${box.call.reply}, and it is ${box.reply}.`);
  } else {
    item.append(" is lost: it returned, and is not executed.");
  }
  return item;
}

function showFindings() {
  for (const shown of document.querySelectorAll(".of-history")) shown.hidden = !latePairs.length;
  if (data.findings === undefined) return;
  const words = data.findings.length
    ? `Of the calls in ${data.history}:`
    : `One copy, by the calls in ${data.history}.`;
  fill("findings", words, data.findings.map(findingItem));
}

// How many wait, as a link to the first of them.
function waitingLink() {
  if (!data.waiting) return "none waits";
  const made = links([count])[0];
  made.textContent = counted(data.waiting, "waits", "wait");
  return made;
}

function showCounts() {
  const logs = data.logs.length === 1 ? data.logs[0] : `${data.logs.length} logs`;
  const title = `The execution of ${logs}`;
  document.title = `epx: ${title}`;
  document.getElementById("title").textContent = title;
  const parts = counted(data.components, "component", "components");
  const words = `${counted(count, "instance is", "instances are")} executed, in ${parts}`;
  const names = data.logs.length > 1 ? ` Logs: ${data.logs.join(", ")}.` : "";
  document.getElementById("counts").replaceChildren(`${words}; `, waitingLink(), `.${names}`);
}
