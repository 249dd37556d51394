// What the address says: an example or a script, the horizon, the cursor, and the script that is kept beside it.
// What is longer than an address may be stays with the page in the browser's history, where a reload and the way back find it.
const LONGEST = 100_000, LONG = "#long";
export const isTooLong = (hash) => hash.length > LONGEST;

// What the address does not say yet when the page goes, the tab keeps: a reload or the way back to that address begins with it, and a
// link that is opened does not.
const UNTOLD = "untold";
const isOpened = () => performance.getEntriesByType("navigation")[0]?.type === "navigate";
function takeUntold() {
  try {
    const [place, hash] = JSON.parse(sessionStorage.getItem(UNTOLD) || "[]");
    sessionStorage.removeItem(UNTOLD);
    return place === location.hash && !isOpened() ? hash : null;
  } catch { return null; }
}
function keepUntold() {
  if (!untold) return;
  try { sessionStorage.setItem(UNTOLD, JSON.stringify([location.hash, addressOf(untold())])); } catch { /* too long, or no storage here */ }
}
let clock = 0, untold = null, left = takeUntold();
window.addEventListener("pagehide", keepUntold);
// A page that comes back as it was has lost nothing.
window.addEventListener("pageshow", (shown) => { if (shown.persisted) takeUntold(); });

export function fromAddress() {
  const hash = left || location.hash === LONG && history.state || location.hash, said = new URLSearchParams(hash.slice(1).replaceAll("+", "%2B"));
  left = null;
  const number = (name) => /^\d{1,19}$/.test(said.get(name) || "") ? said.get(name) : "";
  return { example: said.get("example") || "", script: said.get("script"), horizon: number("horizon"), cursor: number("cursor"), beside: said.get("beside") };
}

// The part of an address that says all that. An example that is not changed is told by its name.
export function addressOf({ example, script, horizon, cursor, beside }) {
  const parts = [];
  if (example) parts.push("example=" + encodeURIComponent(example));
  if (script !== null) parts.push("script=" + encodeURIComponent(script));
  parts.push("horizon=" + horizon, "cursor=" + cursor);
  if (beside !== null) parts.push("beside=" + encodeURIComponent(beside));
  return "#" + parts.join("&");
}

function put(said) {
  const hash = addressOf(said());
  clearTimeout(clock); untold = null;
  if (isTooLong(hash)) history.replaceState(hash, "", LONG); else if (hash !== location.hash) history.replaceState(null, "", hash);
}
// What stands in the page now becomes the page before this one, to which the browser's way back leads. The new one has another
// address at once, since a browser tells of the way only where the addresses differ.
export function leaveInAddress(said) {
  put(said); history.pushState(null, "", "#");
}
export function toAddress(said) {
  clearTimeout(clock);
  untold = said; clock = setTimeout(put, 250, said);
}
