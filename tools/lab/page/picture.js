// One picture of the page to work in. The page around it gives it data, a cursor and what differs, and hears of its keys and its cursor.
const EMPTY = { ticks: ["0", "1"], places: [0, 1], cuts: [], detail: true, threads: [], colours: {}, shown: {}, kinds: {}, words: {},
  frames: [], mutexes: [], wakes: [], facts: {}, killed: "", lines: [], at: [] };
const side = window.frameElement ? window.frameElement.id : "a";
let differing = {}, fits = true;

const tickNow = () => tickAt(place).tick;
const inRun = (tick) => tick < ticks[0] ? ticks[0] : tick > ticks[last] ? ticks[last] : tick;
const isWhole = () => scale <= Math.max(1, width - gutter - 24) / total * 1.0001;

// Shows a run with the cursor at a tick. What is zoomed at stays. What differs from another run is drawn with it, where that is said.
function show(given, tick) {
  const from = tickAt(Math.max(0, left)).tick, moves = tick !== tickNow();
  take(given); measure(); overview(); legend();
  place = placeOfTick(inRun(tick)); held = true; second = second === null ? null : inRun(second);
  if (fits) scale = 0; else left = placeOfTick(inRun(from));
  width = canvas.clientWidth; height = canvas.clientHeight;
  clampView();
  if (moves) reveal();
  tell(); drawSoon();
}
// Draws in the next frame, once, however many things of it have changed.
let asked = 0;
function drawSoon() {
  asked = asked || requestAnimationFrame(() => { asked = 0; draw(); });
}
function goTo(tick) { held = true; moveTo(placeOfTick(inRun(tick))); }
function press(name) { if (!KEYS[name]) return false; KEYS[name](); return true; }
function paintDifferences(bars) {
  pen.fillStyle = look.dark ? "#ff6ad5" : "#c2188f";
  data.threads.forEach((thread, number) => {
    for (const [from, to] of differing[thread.name] || []) {
      if (from > ticks[last]) continue;
      const x = Math.max(gutter, xOf(placeOfTick(inRun(from)))), end = xOf(placeOfTick(inRun(to)));
      if (end <= gutter || x >= width) continue;
      pen.globalAlpha = 0.13; pen.fillRect(x, bars[number] - 2, Math.max(2, end - x), sizes.bar + 5);
      pen.globalAlpha = 1; pen.fillRect(x, bars[number] + sizes.bar + 1, Math.max(2, end - x), 3);
    }
  });
}
overlays.push(paintDifferences);
let toldTick = null;
hearers.push((at) => {
  if (at.tick === toldTick) return;
  toldTick = at.tick;
  window.parent.lab?.moved(side, at.tick);
});
for (const name of ["d", "?"]) delete KEYS[name];
window.addEventListener("keydown", (key) => {
  if (key.target === element("search") || key.ctrlKey && !"soz".includes(key.key) || key.metaKey || key.altKey || KEYS[key.key] && !key.ctrlKey) return;
  if (window.parent.lab?.pressed(key.key, key.ctrlKey)) key.preventDefault();
});
// A picture of the whole run stays one when its room changes, unless something was done to look closer.
new ResizeObserver(() => { if (fits) showAll(); else resized(); }).observe(canvas);
for (const done of ["wheel", "keydown", "click", "pointermove"]) window.addEventListener(done, () => setTimeout(() => { if (canvas.clientWidth) fits = isWhole(); }));
take(EMPTY); measure(); setDark(false); showAll();
// Not `picture`: that is the canvas, by its id.
window.pane = { show, goTo, press, dark: setDark, tick: tickNow, focus: (still = false) => canvas.focus({ preventScroll: still }), differ(threads) { differing = threads; drawSoon(); },
  data: () => data };
