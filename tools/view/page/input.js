// What the mouse, the fingers and the keys do.
function clampView() {
  const least = Math.max(1, width - gutter - 24) / total;
  scale = Math.max(least, Math.min(scale, MOST_SCALE));
  left = Math.max(0, Math.min(left, total - (width - gutter - 24) / scale));
  if (!(left > 0)) left = 0;
  scroll = Math.max(0, Math.min(scroll, whole() - height));
}
function zoom(factor, x) {
  const fixed = placeOf(x);
  scale *= factor;
  width = canvas.clientWidth; height = canvas.clientHeight;
  clampView();
  left = fixed - (x - gutter) / scale;
  clampView(); draw();
}
function showAll() { width = canvas.clientWidth; height = canvas.clientHeight; scale = 0; left = 0; clampView(); draw(); }
// Pans so far that the cursor is in sight.
function reveal() {
  const x = xOf(place);
  if (x < gutter || x > width - 10) { left = place - (width - gutter) / 2 / scale; clampView(); }
}
function moveTo(where) { place = Math.max(0, Math.min(total, where)); reveal(); tell(); draw(); }
function point(x) { place = Math.max(0, Math.min(total, placeOf(x))); tell(); draw(); }
function step(direction) {
  const tick = tickAt(place).tick + BigInt(direction);
  held = true;
  if (tick >= ticks[0] && tick <= ticks[last]) moveTo(placeOfTick(tick));
}
function event(direction) {
  const at = tickAt(place);
  const next = direction > 0 ? at.point + 1 : ticks[at.point] < at.tick ? at.point : at.point - 1;
  held = true;
  moveTo(places[Math.max(0, Math.min(last, next))]);
}
function toTheEnd(where) { held = true; moveTo(where); }
function setSecond() { second = tickAt(place).tick; tell(); draw(); }
function letGo() { held = false; second = null; wanted = element("search").value = ""; element("search").blur(); tell(); draw(); }
function toggleLists() { withLists = !withLists && data.detail; clampView(); draw(); }
function setDark(on) { document.documentElement.classList.toggle("dark", on); readLook(); draw(); }
const toggleDark = () => setDark(!document.documentElement.classList.contains("dark"));
function toggleHelp() { element("keys").hidden = !element("keys").hidden; resized(); }
function resized() { width = canvas.clientWidth; height = canvas.clientHeight; clampView(); draw(); }
function goUp(by) { scroll += by; clampView(); draw(); }

canvas.addEventListener("wheel", (wheel) => {
  wheel.preventDefault();
  if (wheel.shiftKey) goUp(wheel.deltaY || wheel.deltaX);
  else if (Math.abs(wheel.deltaX) > Math.abs(wheel.deltaY)) { left += wheel.deltaX / scale; clampView(); draw(); }
  else zoom(Math.exp(-wheel.deltaY / 400), wheel.offsetX);
}, { passive: false });

// Fingers and buttons that are down: one pans, two zoom about their middle; one that does not move is a click or a tap.
const down = new Map();
let moved = false, pinch = null;
const spread = () => { const [a, b] = [...down.values()]; return { wide: Math.max(8, Math.abs(a.x - b.x)), middle: (a.x + b.x) / 2 }; };
canvas.addEventListener("pointerdown", (pointer) => {
  if (pointer.isTrusted) canvas.setPointerCapture(pointer.pointerId);
  down.set(pointer.pointerId, { x: pointer.offsetX, y: pointer.offsetY, fromX: pointer.offsetX, fromY: pointer.offsetY, left, scroll });
  moved = down.size > 1; pinch = down.size === 2 ? spread() : null;
});
canvas.addEventListener("pointermove", (pointer) => {
  const finger = down.get(pointer.pointerId);
  if (!finger) { if (!held && pointer.pointerType === "mouse" && pointer.offsetX >= gutter) point(pointer.offsetX); return; }
  finger.x = pointer.offsetX; finger.y = pointer.offsetY;
  if (Math.abs(finger.x - finger.fromX) + Math.abs(finger.y - finger.fromY) > 3) moved = true;
  if (down.size === 2 && pinch) { const now = spread(); zoom(now.wide / pinch.wide, now.middle); pinch = now; }
  else if (down.size === 1 && moved) { left = finger.left - (finger.x - finger.fromX) / scale; scroll = finger.scroll - (finger.y - finger.fromY); clampView(); draw(); }
});
function lift(pointer) {
  if (!down.delete(pointer.pointerId)) return;
  if (down.size || moved || pointer.type === "pointercancel") return;
  const tick = tickAt(Math.max(0, Math.min(total, placeOf(pointer.offsetX)))).tick;
  if (pointer.shiftKey) { second = tick; tell(); draw(); return; }
  // A click where the cursor is held lets it go, and one elsewhere holds it there.
  const there = tick === tickAt(place).tick || Math.abs(pointer.offsetX - xOf(place)) <= 3;
  held = !(held && there && pointer.pointerType === "mouse");
  point(pointer.offsetX);
}
canvas.addEventListener("pointerup", lift);
canvas.addEventListener("pointercancel", lift);

const KEYS = { ArrowLeft: () => step(-1), ArrowRight: () => step(1), "+": () => zoom(1.5, xOf(place)), "=": () => zoom(1.5, xOf(place)), "-": () => zoom(1 / 1.5, xOf(place)),
  0: showAll, n: () => event(1), p: () => event(-1), Home: () => toTheEnd(0), End: () => toTheEnd(total), m: setSecond, Escape: letGo,
  ArrowUp: () => goUp(-40), ArrowDown: () => goUp(40), l: toggleLists, d: toggleDark, "?": toggleHelp, "/": () => element("search").focus() };
window.addEventListener("keydown", (key) => {
  const typing = key.target === element("search");
  if (typing && key.key === "Enter") goToFound();
  if ((typing && key.key !== "Escape") || !KEYS[key.key] || key.ctrlKey || key.metaKey || key.altKey) return;
  key.preventDefault(); KEYS[key.key]();
});
element("search").addEventListener("input", () => { wanted = element("search").value.trim(); tell(); });
const BUTTONS = { in: KEYS["+"], out: KEYS["-"], all: showAll, before: KEYS.p, after: KEYS.n, mark: setSecond, lists: toggleLists, dark: toggleDark, help: toggleHelp };
for (const [id, does] of Object.entries(BUTTONS)) element(id).onclick = does;
window.addEventListener("resize", resized);
