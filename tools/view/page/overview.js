// The overview of a long run: all of it in one strip, a frame about what is in sight, and the cursor as a slider over it.
const LONG = 400, strip = element("strip"), slider = element("at"), inked = document.createElement("canvas");
let inkedFor = null;

// A short run needs none. To be called when the data are others, and before anything is drawn.
function overview() { element("overview").hidden = last < LONG; inkedFor = null; }

// For how much of each column the processor ran, in the colour of the priority at which it mostly did.
function inkRun(wide, high) {
  const share = new Float64Array(wide), most = new Float64Array(wide), mostly = new Array(wide);
  for (const thread of data.threads) for (const [from, to, state, priority] of thread.spans) {
    if (state !== RUNNING) continue;
    const start = places[from] / total * wide, end = places[to] / total * wide;
    for (let x = Math.floor(start); x < end && x < wide; x++) {
      const part = Math.min(end, x + 1) - Math.max(start, x);
      share[x] += part;
      if (part > most[x]) { most[x] = part; mostly[x] = priority; }
    }
  }
  inked.width = wide; inked.height = high;
  const ink = inked.getContext("2d");
  for (let x = 0; x < wide; x++) if (mostly[x] !== undefined) { ink.fillStyle = data.colours[mostly[x]][0]; ink.fillRect(x, high * (1 - share[x]), 1, high); }
  inkedFor = data;
}
function drawOverview() {
  if (element("overview").hidden) return;
  const dots = window.devicePixelRatio || 1, wide = Math.round(strip.clientWidth * dots), high = Math.round(strip.clientHeight * dots);
  if (!wide) return;
  if (inkedFor !== data || inked.width !== wide || inked.height !== high) inkRun(wide, high);
  strip.width = wide; strip.height = high;
  const brush = strip.getContext("2d"), x = left / total * wide, end = Math.min(wide, Math.max(x + 4, placeOf(width) / total * wide));
  brush.drawImage(inked, 0, 0);
  brush.globalAlpha = 0.6; brush.fillStyle = look.paper; brush.fillRect(0, 0, x, high); brush.fillRect(end, 0, wide - end, high);
  brush.globalAlpha = 1; brush.strokeStyle = look.ink; brush.lineWidth = 1.5 * dots; brush.strokeRect(x + dots, dots, Math.max(2, end - x - 2 * dots), high - 2 * dots);
  slider.value = place / total;
  slider.setAttribute("aria-valuetext", "tick " + tickAt(place).tick);
}
overlays.push(drawOverview);
slider.addEventListener("input", () => { held = true; moveTo(Number(slider.value) * total); });
