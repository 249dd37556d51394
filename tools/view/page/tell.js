// What is said of the cursor's tick, the list of events, the search, and the legend.
const element = (id) => document.getElementById(id);
// Whether the facts stand below the states; a page that shows them otherwise says no.
let wanted = "", tellsFacts = true;

// How far two instants are apart, in words.
function ticksBetween(one, other) {
  const ticks = one > other ? one - other : other - one;
  return ticks + (ticks == 1 ? " tick" : " ticks");
}

function tell() {
  const at = tickAt(place), over = at.point >= last;
  element("tick").textContent = at.tick.toString();
  let who = over ? data.killed ? "the process is killed by " + data.killed : "the run is over" : "idle";
  const threads = data.threads.map((thread) => {
    const span = spanOf(thread, at.point);
    const text = span !== null ? inWords(span) : thread.ended !== null && at.point >= thread.ended ? "has ended" : over ? "" : "has not started";
    if (span && span[2] === RUNNING) who = thread.name + " " + text + ", from " + ticks[span[0]] + " to " + ticks[span[1]];
    const capacity = capacityOf(thread, at);
    return { text: thread.name + " " + text + (thread.server && capacity !== null ? ", capacity " + capacity : "") };
  });
  element("who").textContent = "· " + who;
  element("distance").textContent = second === null ? "" : "· second cursor " + second + ", " + ticksBetween(second, at.tick) + " from here";
  fill(element("states"), tellsFacts ? [...threads, ...facts(at)] : threads);
  fill(element("list"), events(at));
  for (const hear of hearers) hear(at);
}

// Who stands on which list, and what else the facts say of this instant.
function facts(at) {
  if (!data.detail || at.point >= last) return [];
  const said = lists.map(([priority, changes]) => [priority, factAt(changes, at.point)]).filter(([, members]) => members);
  const items = said.length ? [{ text: "lists, head first", kind: "group" }] : [];
  items.push(...said.map(([priority, members]) => ({ text: priority + ": " + members })));
  const others = FACTS.flatMap(([word, name]) => factsOf(word).map(([subject, changes]) => [name + " " + subject, factAt(changes, at.point)]).filter(([, words]) => words));
  if (others.length) items.push({ text: "objects, signals and servers", kind: "group" });
  return items.concat(others.map(([name, words]) => ({ text: name + ": " + words })));
}
// The events around the cursor, or those that the search finds.
function events(at) {
  const numbers = wanted ? data.lines.map((_, number) => number).filter((number) => data.lines[number].includes(wanted)) : null;
  const count = numbers ? numbers.length : data.lines.length, numberOf = (place) => numbers ? numbers[place] : place;
  element("found").textContent = wanted ? count + " of " + data.lines.length + " events" : "Events";
  if (!count) return [];
  const next = lastAtMost(count, (i) => data.at[numberOf(i)], at.point), tickOf = (place) => ticks[data.at[numberOf(place)]];
  let first = next;
  while (first > 0 && tickOf(first - 1) === tickOf(next)) first--;
  // Those of the cursor's tick stand near the top, where a low list shows them too.
  first = Math.max(0, first - 3);
  return Array.from({ length: Math.min(count, next + 40) - first }, (_, n) => numberOf(first + n)).map((number) => {
    const now = ticks[data.at[number]] === at.tick;
    return { text: data.lines[number], kind: now ? "now" : data.at[number] <= at.point ? "past" : "", go: data.at[number] };
  });
}
function fill(list, items) {
  list.replaceChildren(...items.map((item) => {
    const line = document.createElement("li");
    line.textContent = item.text;
    if (item.kind) line.className = item.kind;
    if (item.go !== undefined) line.onclick = () => { held = true; moveTo(places[item.go]); };
    return line;
  }));
}
// The next event that is found behind the cursor, or the first one.
function goToFound() {
  const found = data.at.filter((_, number) => wanted && data.lines[number].includes(wanted));
  const point = tickAt(place).point, next = found.find((at) => at > point);
  if (found.length) { held = true; moveTo(places[next === undefined ? found[0] : next]); }
}

const box = (inside) => '<svg viewBox="0 0 20 11">' + inside + "</svg>";
function legend() {
  const items = Object.entries(data.shown).sort((a, b) => b[0] - a[0]).map(([priority, colour]) => [box(`<rect width="20" height="11" fill="${colour}"/>`), "runs at " + priority]);
  const spans = data.threads.flatMap((thread) => thread.spans), has = (test) => spans.some(test);
  if (has((span) => span[4] === 0)) items.push([box('<rect width="20" height="11" fill="#7a8aa8"/><rect y="5.5" width="20" height="5.5" fill="#fff" opacity="0.45"/>'), "the server's low priority"]);
  if (has((span) => span[2] === READY)) items.push([box('<rect x="0.5" y="2.5" width="19" height="6" fill="none" stroke="currentColor"/>'), "ready"]);
  for (const kind of new Set(spans.filter((span) => span[2] === WAITING).map((span) => span[6])))
    items.push([box(`<rect y="1" width="20" height="9" fill="${data.kinds[kind]}" opacity="0.2"/><path d="M0,10H20" stroke="${data.kinds[kind]}" stroke-width="2" stroke-dasharray="2 2"/>`),
      { sleep: "sleeps", join: "joins", "": "waits" }[kind] || "waits for a " + kind]);
  if (has((span) => span[2] > WAITING)) items.push([box('<path d="M0,5.5H20" stroke="currentColor" stroke-dasharray="1 4"/>'), "does not run, no more is told"]);
  for (const [cleanup, text] of [[0, "in a signal handler"], [1, "in a cleanup handler"]])
    if (has((span) => span[9] && span[10] === cleanup)) items.push([box(`<rect width="20" height="11" fill="#bbb"/><rect width="20" height="4" fill="${data.frames[cleanup]}"/>`), text]);
  if (data.mutexes.length) items.push([box('<rect width="20" height="11" fill="var(--owner)"/>'), "owner of a mutex"],
    [box('<rect width="20" height="11" fill="var(--contended)"/>'), "others wait for it"]);
  if (data.wakes.length) items.push([box('<path d="M2,1C-2,6 6,6 9,10" fill="none" stroke="var(--arrow)"/>'), "who wakes whom"]);
  for (const [kind, [colour, corners, text]] of Object.entries(SHAPES))
    if (data.threads.some((thread) => thread.marks.some((mark) => mark[1] === kind)))
      items.push([box(`<path transform="translate(10 5.5) scale(4.4)" d="M${corners.map((corner) => corner.join(",")).join("L")}Z" fill="var(--${colour})"/>`), text]);
  if (data.threads.some((thread) => thread.server)) items.push(
    [box('<path d="M0,2H9V6H14V10H20" fill="none" stroke="var(--blue)" stroke-width="1.5"/>'), "capacity"], [box('<circle cx="10" cy="5.5" r="3.5" fill="none" stroke="var(--blue)"/>'), "plan"],
    [box('<circle cx="10" cy="5.5" r="3.5" fill="var(--blue)"/>'), "refill, with its amount"]);
  if (last >= LONG) items.push([box('<rect y="7" width="20" height="4" fill="#4575b4"/><rect y="4" width="20" height="3" fill="var(--dense-ready)"/><rect width="20" height="4" fill="var(--dense-wait)"/>'),
    "where all stands close: for how much of it a thread runs, is ready, waits"]);
  if (data.killed) items.push([box(`<path d="M10,0V11" stroke="var(--red)" stroke-width="2"/>`), "killed by " + data.killed]);
  if (data.cuts.length) items.push([box('<rect width="20" height="11" fill="#b4a88c" opacity="0.5"/>'), "nothing happens there, and the axis is cut"]);
  element("legend").innerHTML = items.map(([icon, text]) => "<span>" + icon + text + "</span>").join("");
}
