// The picture on the canvas.
const canvas = document.getElementById("picture"), pen = canvas.getContext("2d");
const FONT = '"DejaVu Sans", Verdana, Helvetica, Arial, sans-serif';
const sizesOf = (rows) => rows <= 12 ? { bar: 20, marks: 16, server: 54, gap: 8, object: 20 }
  : rows <= 28 ? { bar: 14, marks: 12, server: 38, gap: 5, object: 16 } : { bar: 12, marks: 9, server: 28, gap: 3, object: 15 };
const MOST_SCALE = 120, AXIS = 34, BIN = 3, MOST_LEVELS = 4, LEAST_TEXT = 9;
let sizes, gutter, levels, greatest;
let width = 0, height = 0, scale = 1, left = 0, scroll = 0, place = 0, held = false, second = null, withLists = false, look = {};
// What else is drawn on the rows, and who hears of each tick that is told: a page that has more than the picture adds to these.
const overlays = [], hearers = [];
const xOf = (where) => gutter + (where - left) * scale;
const placeOf = (x) => left + (x - gutter) / scale;
// Of each kind of mark the name of its colour, its corners, and what the legend says of it.
const SHAPES = {
  start: ["green", [[-1, -1], [1, 0], [-1, 1]], "start"], exit: ["grey", [[-1, -1], [1, -1], [1, 1], [-1, 1]], "exit"],
  activate: ["azure", [[0, -1], [1, 1], [-1, 1]], "activate"], exhaust: ["red", [[-1, -1], [1, -1], [0, 1]], "exhaust"],
  deliver: ["violet", [[0, -1], [1, 0], [0, 1], [-1, 0]], "a signal is delivered"], cancel: ["red", [[-1, -1], [0, -0.3], [1, -1], [0.3, 0], [1, 1], [0, 0.3], [-1, 1], [-0.3, 0]], "cancel"],
  error: ["red", [[-0.3, -1], [0.3, -1], [0.3, 1], [-0.3, 1]], "a call returns an error"], clock: ["teal", [[-1, -1], [1, -1], [-1, 1], [1, 1]], "the clock is set"],
  release: ["grey", [[-0.15, 1], [-0.15, -0.2], [-0.8, -0.2], [0, -1], [0.8, -0.2], [0.15, -0.2], [0.15, 1]], "a job is released"],
  late: ["red", [[0, 1], [0, -1], [1.6, -0.5], [0.2, 0], [0.2, 1]], "its deadline, missed"],
};
const LABELLED = new Set(["deliver", "error", "late", "clock"]);
// How wide the names are, how high the rows and the marks on one another, and the greatest capacity of each server.
function measure() {
  sizes = sizesOf(data.threads.length + data.mutexes.length / 2);
  const wide = (name, font) => { pen.font = font + FONT; return Math.ceil(pen.measureText(name).width); };
  gutter = Math.min(180, 16 + Math.max(40, ...data.threads.map((thread) => wide(thread.name, "bold 12px ")), ...data.mutexes.map((mutex) => wide(mutex.name, "10px "))));
  levels = data.threads.map(levelsOf);
  greatest = data.threads.map((thread) => thread.capacity.reduce((most, piece) => Math.max(most, Number(piece[2])), 1));
}
function levelsOf(thread) {
  let most = 1, point = -1, count = 0;
  for (const [at, kind] of thread.marks) if (kind in SHAPES) { count = at === point ? count + 1 : 1; point = at; most = Math.max(most, count); }
  return Math.min(MOST_LEVELS, most);
}
const radius = () => Math.min(4.2, sizes.marks * 0.28);
const room = (number) => sizes.marks + (levels[number] - 1) * (2 * radius() + 2);
const ROW = (number) => room(number) + sizes.bar + sizes.gap + (data.threads[number].server ? sizes.server : 0);
const whole = () => AXIS + 18 + data.threads.reduce((sum, _, number) => sum + ROW(number), 0) + data.mutexes.length * sizes.object + (withLists ? lists.length * 16 : 0);

const COLOURS = ["ink", "faint", "line", "pale", "paper", "now", "held", "second", "cut", "blue", "owner", "contended", "dense-ready", "dense-wait", "arrow", "green", "grey", "azure", "red", "violet", "teal"];
function readLook() {
  const style = getComputedStyle(document.documentElement);
  look.dark = document.documentElement.classList.contains("dark");
  for (const name of COLOURS) look[name] = style.getPropertyValue("--" + name).trim();
}
function line(colour, wide, x, y, toX, toY, dashes = []) {
  pen.strokeStyle = colour; pen.lineWidth = wide; pen.setLineDash(dashes);
  pen.beginPath(); pen.moveTo(x, y); pen.lineTo(toX, toY); pen.stroke(); pen.setLineDash([]);
}
function write(text, x, y, size, colour, align = "left", weight = "") {
  pen.font = weight + " " + size + "px " + FONT; pen.fillStyle = colour; pen.textAlign = align; pen.fillText(text, x, y);
}
// A name that is as wide as its column at most, or else its beginning and its end.
function fitted(name, size, weight = "") {
  pen.font = weight + " " + size + "px " + FONT;
  let kept = name.length;
  const cut = () => kept === name.length ? name : name.slice(0, Math.ceil(kept / 2)) + "…" + name.slice(name.length - Math.floor(kept / 2));
  while (kept > 2 && pen.measureText(cut()).width > gutter - 14) kept--;
  return cut();
}
function draw() {
  const dots = window.devicePixelRatio || 1;
  width = canvas.clientWidth; height = canvas.clientHeight;
  canvas.width = width * dots; canvas.height = height * dots;
  pen.setTransform(dots, 0, 0, dots, 0, 0);
  pen.clearRect(0, 0, width, height);
  document.body.dataset.scale = scale; document.body.dataset.left = left;
  drawCursorBand();
  pen.save();
  pen.beginPath(); pen.rect(0, AXIS, width, height - AXIS); pen.clip();
  let y = AXIS + 6 - scroll;
  const bars = data.threads.map((thread, number) => {
    const bar = y + room(number);
    if (y + ROW(number) > AXIS && y < height) drawRow(thread, number, y, bar);
    y += ROW(number);
    return bar;
  });
  y += 6;
  for (const mutex of data.mutexes) { drawOwners(mutex, y); y += sizes.object; }
  if (withLists) for (const [priority, changes] of lists) { drawList(priority, changes, y); y += 16; }
  drawWakes(bars);
  pen.restore();
  for (const paint of overlays) paint(bars);
  drawCuts(); drawAxis(); drawKill(); drawCursors();
}
function drawKill() {
  const x = xOf(total);
  if (data.killed && x >= gutter && x <= width) line(look.red, 2, x, AXIS - 6, x, Math.min(height, AXIS + whole() - scroll));
}
function drawCursorBand() {
  const at = tickAt(place), x = xOf(at.start);
  if (x < gutter || x > width) return;
  pen.fillStyle = look.now; pen.fillRect(x, AXIS, Math.max(1.5, at.wide * scale), height);
}
function drawCursors() {
  const x = xOf(tickAt(place).start);
  if (x >= gutter && x <= width) line(look.held, held ? 1.6 : 0.8, x, 0, x, height);
  if (second === null) return;
  const other = xOf(placeOfTick(second));
  if (other >= gutter && other <= width) line(look.second, 1.4, other, 0, other, height, [5, 3]);
  line(look.second, 1, Math.max(gutter, x), 9, Math.max(gutter, Math.min(width, other)), 9);
}
function drawAxis() {
  pen.fillStyle = look.paper; pen.fillRect(0, 0, width, AXIS);
  line(look.faint, 1, gutter, AXIS, width, AXIS);
  let free = gutter - 20;
  const first = pointAt(left), end = pointAt(placeOf(width));
  for (let point = first; point <= end && point < ticks.length; ) {
    let next = point + 1;
    while (next < last && !cuts.has(next) && !cuts.has(next - 1)) next++;
    if (!cuts.has(point)) free = drawNumbers(ticks[point], ticks[Math.min(next, last)], free);
    point = next;
  }
}
function drawNumbers(from, to, free) {
  const letters = to.toString().length, perTick = Math.max(scale * (from === to ? 1 : (placeOfTick(to) - placeOfTick(from)) / Number(to - from)), 1e-30);
  let step = 1n;
  const least = (letters * 7 + 18) / perTick;
  while (Number(step) < least) step = String(step)[0] === "2" ? step / 2n * 5n : step * 2n;
  let tick = from % step === 0n ? from : (from / step + 1n) * step;
  const seen = tickAt(Math.max(left, placeOfTick(from))).tick;
  if (tick < seen) tick = seen / step * step;
  for (; tick <= to; tick += step) {
    const x = xOf(placeOfTick(tick)), text = tick.toString(), wide = letters * 7;
    if (x > width) break;
    if (x < gutter) continue;
    line(look.faint, 1, x, AXIS - 5, x, AXIS);
    if (x <= free) continue;
    const inside = x + 3 + wide <= width;
    if (inside || x - wide > free) write(text, inside ? x + 3 : x - 3, AXIS - 9, 11, look.ink, inside ? "left" : "right");
    free = x + wide + 8;
  }
  return free;
}
function drawCuts() {
  for (const point of cuts) {
    const x = xOf(places[point]), end = xOf(places[point + 1]);
    if (end < gutter || x > width) continue;
    pen.fillStyle = look.cut; pen.fillRect(x, AXIS, end - x, height);
    pen.save(); pen.translate((x + end) / 2 + 4, height - 12); pen.rotate(-Math.PI / 2);
    write("cut: " + (ticks[point + 1] - ticks[point]) + " ticks", 0, 0, 10, look.faint); pen.restore();
  }
}
function drawRow(thread, number, y, bar) {
  pen.save();
  pen.beginPath(); pen.rect(gutter - 5, 0, width - gutter + 5, height); pen.clip();
  if (isDense(thread)) drawDensity(thread, bar); else drawSpans(thread, bar);
  if (thread.server) drawServer(thread, bar + sizes.bar + 6, sizes.server - 18);
  drawMarks(thread, bar);
  pen.restore();
  write(fitted(thread.name, Math.min(12, sizes.bar), "bold"), 8, bar + sizes.bar * 0.75, Math.min(12, sizes.bar), look.ink, "left", "bold");
  if (thread.server) {
    write(greatest[number], gutter - 7, bar + sizes.bar + 12, LEAST_TEXT, look.faint, "right");
    // A low lane has no room for both ends of its scale.
    if (sizes.server > 30) write("0", gutter - 7, bar + sizes.bar + sizes.server - 9, LEAST_TEXT, look.faint, "right");
  }
  line(look.pale, 1, 0, y + ROW(number) - 1, width, y + ROW(number) - 1);
}
// Whether most stretches in sight are too narrow to be told apart. The point where one begins stands first in it.
function isCrowded(list) {
  const from = firstFrom(list), to = lastAtMost(list.length, (i) => places[list[i][0]], placeOf(width));
  return to - from > (width - gutter) / 4;
}
const firstFrom = (list) => list.length ? lastAtMost(list.length, (i) => places[list[i][0]], left) : 0;
const isDense = (thread) => isCrowded(thread.spans);
// The widest part of a stretch that no cut covers.
function clearOfCuts(start, stop) {
  let from = start, best = [start, start];
  for (const point of data.cuts) {
    const x = xOf(places[point]), end = xOf(places[point + 1]);
    if (x >= stop) break;
    if (x - from > best[1] - best[0]) best = [from, x];
    from = Math.max(from, end);
  }
  return stop - from > best[1] - best[0] ? [from, stop] : best;
}
function label(texts, x, end, y, size, colour) {
  if (Math.min(end, width) - Math.max(x, gutter) < size) return false;
  const [start, stop] = clearOfCuts(Math.max(x, gutter), Math.min(end, width));
  const text = texts.find((said) => said && stop - start > said.length * size * 0.62 + 4);
  if (text) write(text, (start + stop) / 2, y, size, colour, "center");
  return Boolean(text);
}
function drawSpans(thread, bar) {
  const drawn = [-1, -1, -1, -1], middle = bar + sizes.bar * 0.74, small = LEAST_TEXT, floor = bar + sizes.bar * 0.8;
  for (let i = firstFrom(thread.spans); i < thread.spans.length; i++) {
    const [from, to, state, priority, high, call, kind, what, , frame, cleanup] = thread.spans[i];
    const x = xOf(places[from]), end = xOf(places[to]);
    if (x > width) break;
    if (end - drawn[state] < 0.6) continue;
    drawn[state] = end;
    const wide = Math.max(end - x, 0.6);
    if (state === RUNNING) {
      const [fillColour, ink] = data.colours[priority];
      pen.fillStyle = fillColour; pen.fillRect(x, bar, wide, sizes.bar);
      if (high === 0) { pen.fillStyle = "rgba(255,255,255,0.45)"; pen.fillRect(x, bar + sizes.bar / 2, wide, sizes.bar / 2); }
      label([(priority + " " + frame).trim(), String(priority)], x, end, middle, Math.min(11, sizes.bar - 1), ink);
    } else if (state === READY) {
      pen.strokeStyle = look.faint; pen.lineWidth = 0.8; pen.strokeRect(x, bar + sizes.bar * 0.2, wide, sizes.bar * 0.6);
      label([priority ? "ready at " + priority : "ready", "ready"], x, end, bar + sizes.bar * 0.68, small, look.faint);
    } else if (state === WAITING) {
      pen.globalAlpha = 0.2; pen.fillStyle = data.kinds[kind]; pen.fillRect(x, bar + sizes.bar * 0.2, wide, sizes.bar * 0.6); pen.globalAlpha = 1;
      line(data.kinds[kind], 1.6, x, floor, end, floor, [2, 2]);
      label([(data.words[kind] + " " + what).trim() || call, what, data.words[kind]], x, end, floor - 1 - small * 0.24, small, kind === "sleep" ? look.faint : look.dark ? look.ink : data.kinds[kind]);
    } else line(look.faint, 1, x, bar + sizes.bar / 2, end, bar + sizes.bar / 2, [1, 5]);
    if (frame) { pen.fillStyle = data.frames[cleanup]; pen.fillRect(x, bar, wide, 3.6); }
  }
}
// For each small column what of it each stretch has, and then what stands there.
function inColumns(list, add, done) {
  let i = firstFrom(list);
  for (let x = gutter; x < width; x += BIN) {
    const from = placeOf(x), to = placeOf(x + BIN);
    i = Math.min(i, list.length - 1);
    while (i > 0 && places[list[i][0]] > from) i--;
    for (; i < list.length && places[list[i][0]] < to; i++) {
      const [start, end] = list[i], part = Math.min(places[end], to) - Math.max(places[start], from);
      if (part > 0) add(list[i], part / (to - from));
      if (places[end] >= to) break;
    }
    done(x);
  }
}
// How much of each small column the thread ran, from below; above that where it was ready, and where it waited.
function drawDensity(thread, bar) {
  let shares = [0, 0, 0, 0], most = 0, mostly = 0;
  inColumns(thread.spans, ([, , state, priority], part) => {
    shares[state] += part;
    if (state === RUNNING && part > most) { most = part; mostly = priority; }
  }, (x) => {
    let base = bar + sizes.bar;
    for (const [state, colour] of [[RUNNING, most ? data.colours[mostly][0] : ""], [READY, look["dense-ready"]], [WAITING, look["dense-wait"]]]) {
      const high = sizes.bar * shares[state];
      if (high > 0) { base -= high; pen.fillStyle = colour; pen.fillRect(x, base, BIN, high); }
    }
    shares = [0, 0, 0, 0]; most = 0;
  });
}
// The marks in sight: where each stands, and how high, since those of one instant stand on one another.
function marksInSight({ marks }) {
  const past = lastAtMost(marks.length, (i) => places[marks[i][0]], placeOf(width + 4)) + 1, seen = [];
  let from = firstFrom(marks), lastX = -99, level = 0;
  while (from > 0 && marks[from - 1][0] === marks[from][0]) from--;
  if ((past - from) * 6 > width - gutter) return thinned(marks, from, past);
  for (let i = from; i < past && i < marks.length; i++) {
    const [point, kind, text] = marks[i], x = xOf(places[point]);
    if (!(kind in SHAPES) || (x - lastX < 2 && x !== lastX)) continue;
    level = x === lastX ? level + 1 : 0; lastX = x;
    if (level < MOST_LEVELS) seen.push({ x, kind, text, level });
  }
  return seen;
}
// Of too many marks some of each kind, those of the rarest kind first, so that no kind takes the room of another.
function thinned(marks, from, past) {
  const counts = {}, taken = new Uint8Array(Math.ceil(width) + 60), wide = Math.ceil(2 * radius()) + 1, kept = [];
  for (let i = from; i < past; i++) if (marks[i][1] in SHAPES) counts[marks[i][1]] = (counts[marks[i][1]] || 0) + 1;
  const kinds = Object.keys(counts).sort((a, b) => counts[a] - counts[b]), apart = Math.max(24, (wide + 2) * kinds.length);
  for (const kind of kinds) {
    let free = placeOf(gutter - 10);
    for (let i = from; i < past; i++) {
      const place = places[marks[i][0]];
      if (place < free || marks[i][1] !== kind) continue;
      const x = xOf(place), at = Math.round(x) + 20;
      if (taken[at]) continue;
      taken.fill(1, Math.max(0, at - wide + 1), at + wide); free = placeOf(x + apart);
      kept.push({ x, kind, text: "", level: 0 });
    }
  }
  return kept;
}
// A label stands behind its mark, or in front of it where another mark of its level comes too soon and there is room.
function drawMarks(thread, bar) {
  const r = radius(), taken = [], seen = marksInSight(thread);
  seen.forEach(({ x, kind, text, level }, number) => {
    const [colour, corners] = SHAPES[kind], y = bar - r - 2 - level * (2 * r + 2);
    pen.fillStyle = look[colour]; pen.beginPath();
    corners.forEach(([dx, dy], n) => pen[n ? "lineTo" : "moveTo"](x + dx * r, y + dy * r));
    pen.closePath(); pen.fill();
    const before = taken[level] ?? gutter;
    taken[level] = Math.max(before, x + r);
    if (!text || !LABELLED.has(kind) || x + r <= before || sizes.marks < 9) return;
    const side = (kind === "late" ? 1.6 : 1) * r + 2, wide = side + 1 + text.length * 6, next = seen.find((mark, at) => at > number && mark.level === level);
    const inside = x + wide < width, fits = x - wide > before, behind = inside && !(fits && next && next.x - r < x + wide);
    if (!behind && !fits) return;
    write(text, behind ? x + side : x - r - 2, y + 3, LEAST_TEXT, look[colour], behind ? "left" : "right");
    if (behind) taken[level] = x + wide;
  });
}
