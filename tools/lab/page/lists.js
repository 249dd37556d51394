// What stands at the cursor: the ready lists by priority, who waits for whom, owners, budgets, and the rest of the facts.
const REST = FACTS.filter(([word]) => !["mutex", "waiters", "pending"].includes(word));

// Facts that are rows of numbers, in words.
const groups = (words, size) => Array.from({ length: words.length / size }, (_, number) => words.slice(number * size, (number + 1) * size));
const IN_WORDS = {
  messages: (words) => groups(words, 2).map(([priority, value]) => value + " of priority " + priority).join(", "),
  timer: ([due, interval]) => "due at " + due + (interval === "0" ? "" : ", then each " + interval),
  notify: ([signal, value]) => signal + " with the value " + value,
  signal: (words) => groups(words, 3).map(([code, value, target]) => code + " with the value " + value + (target === "*" ? " for the process" : " for " + target)).join(", "),
};
const inWordsOf = (word, said) => said && word in IN_WORDS ? IN_WORDS[word](said.split(" ")) : said;

function section(title, rows) {
  if (!rows.length) return [];
  const head = Object.assign(document.createElement("h2"), { textContent: title }), table = document.createElement("table");
  for (const [name, ...cells] of rows) {
    const row = table.insertRow(), first = Object.assign(document.createElement("th"), { textContent: name });
    first.scope = "row"; row.append(first); row.insertCell().append(...cells);
  }
  table.dataset.what = title;
  return [head, table];
}
const bold = (text) => Object.assign(document.createElement("b"), { textContent: text });
const saidAt = (word, subject, point) => data.facts[word + " " + subject] ? factAt(data.facts[word + " " + subject], point) : "";

function readyRows(point) {
  return lists.map(([priority, changes]) => [priority, factAt(changes, point)]).filter(([, members]) => members)
    .map(([priority, members]) => { const [head, ...tail] = members.split(" "); return ["priority " + priority, bold(head), tail.length ? " " + tail.join(" ") : ""]; });
}
// Where the wait of a stretch began: a setting of the clock moves its end, and begins another stretch.
function beginOf(thread, span) {
  let at = thread.spans.indexOf(span);
  const goesOn = (before) => before && before[1] === thread.spans[at][0] && before[2] === WAITING && before[5] === span[5] && before[7] === span[7];
  while (goesOn(thread.spans[at - 1])) at -= 1;
  return thread.spans[at][0];
}
function waitingRows(point) {
  const rows = [];
  for (const thread of data.threads) {
    const span = spanOf(thread, point);
    if (!span || span[2] !== WAITING) continue;
    const [, , , , , call, kind, what, until] = span;
    const owner = kind === "mutex" && what ? saidAt("mutex", what, point).split(" ")[0] : "";
    const whom = kind === "join" ? " for " + what : owner ? " for " + owner + ", the owner of " + what : what ? " for the " + kind + " " + what : "";
    rows.push([thread.name, "in " + call + whom + ", since " + ticks[beginOf(thread, span)] + (until ? ", until " + until : "")]);
  }
  return rows;
}
function ownerRows(point) {
  return factsOf("mutex").map(([name, changes]) => [name, factAt(changes, point)]).filter(([, owner]) => owner).map(([name, owned]) => {
    const [owner, count] = owned.split(" "), waiters = saidAt("waiters", name, point);
    return [name, bold(owner), (count !== "1" ? " locked " + count + " times" : "") + (waiters ? ", waited for by " + waiters : "")];
  });
}
function budgetRows(at) {
  return data.threads.filter((thread) => thread.server).map((thread) => {
    const pending = saidAt("pending", thread.name, at.point).split(" ").filter(Boolean), plans = [];
    for (let n = 0; n < pending.length; n += 2) plans.push(pending[n] + " at " + pending[n + 1]);
    const capacity = capacityOf(thread, at);
    return [thread.name, [capacity === null ? "" : "capacity " + capacity, plans.length ? "comes back: " + plans.join(", ") : ""].filter(Boolean).join(", ")];
  }).filter(([, said]) => said);
}
function restRows(point) {
  const queues = factsOf("waiters").filter(([name]) => !data.facts["mutex " + name]).map(([name, changes]) => ["waiting for " + name, factAt(changes, point)]);
  return [...queues, ...REST.flatMap(([word, name]) => factsOf(word).map(([subject, changes]) => [name + " " + subject, inWordsOf(word, factAt(changes, point))]))].filter(([, said]) => said);
}
function showLists(at) {
  const over = at.point >= last;
  const parts = over ? [] : [["Ready lists, by priority, head first", readyRows(at.point)], ["Who waits for whom", waitingRows(at.point)],
    ["Owners of mutexes", ownerRows(at.point)], ["Budgets", budgetRows(at)], ["Semaphores, queues, timers, signals", restRows(at.point)]];
  const told = parts.flatMap(([title, rows]) => section(title, rows));
  element("cursor").replaceChildren(...told.length ? told : [Object.assign(document.createElement("h2"), { textContent: !over ? "No list has anyone." : data.killed ? "The process is killed by " + data.killed + "." : "The run is over." })]);
}
hearers.push(showLists);
tellsFacts = false;
