// The lane of a sporadic thread: its capacity, and an arrow from each plan to its refill.
function drawServer(thread, top, high) {
  const base = top + high, unit = high / greatest[data.threads.indexOf(thread)];
  line(look.line, 0.8, gutter, base, width, base);
  const steps = new Path2D();
  let drawn = -9, first = null, end = 0, most = -1, least = -1;
  for (let i = firstFrom(thread.capacity); i < thread.capacity.length; i++) {
    const [from, to, text, falls] = thread.capacity[i], x = xOf(places[from]), value = Number(text);
    if (x > width) break;
    const gone = falls ? Number(ticks[to] - ticks[from]) : 0;
    // Of pieces that are too narrow the greatest and the least capacity are drawn.
    if (xOf(places[to]) - drawn < 0.6) { least = most < 0 ? value - gone : Math.min(least, value - gone); most = Math.max(most, value); continue; }
    if (most >= 0) { steps.lineTo(drawn, base - most * unit); steps.lineTo(drawn, base - Math.max(0, least) * unit); most = -1; }
    drawn = end = xOf(places[to]);
    const stepped = falls && gone <= 300 && (end - x) / gone >= 3;
    const at = (n) => base - Math.max(0, value - n) * unit;
    if (first === null) { first = x; steps.moveTo(x, at(0)); } else steps.lineTo(x, at(0));
    for (let n = 1; stepped && n <= gone; n++) { steps.lineTo(x + (end - x) * n / gone, at(n - 1)); steps.lineTo(x + (end - x) * n / gone, at(n)); }
    if (!stepped) steps.lineTo(end, at(gone));
  }
  if (first !== null) {
    const area = new Path2D(steps);
    area.lineTo(end, base); area.lineTo(first, base);
    pen.fillStyle = "rgba(91,147,214,0.22)"; pen.fill(area);
    pen.strokeStyle = look.blue; pen.lineWidth = isDense(thread) ? 0.5 : 1.4; pen.stroke(steps);
  }
  drawPlans(thread, base, high);
}
// From each plan an arrow to its refill, where the amount stands; of one that is due behind the run the due tick stands at the plan.
function drawPlans(thread, base, high) {
  let free = -99, told = -99;
  const from = thread.plans.findIndex(([point]) => xOf(places[point]) >= 0), to = thread.plans.filter(([point]) => xOf(places[point]) <= width).length;
  const apart = (to - Math.max(0, from)) * 8 > width - gutter ? 24 : 4;
  for (const [point, amount, due, duePoint, refilled] of thread.plans) {
    const x = xOf(places[point]);
    if (x > width) break;
    if (x < free) continue;
    const beyond = BigInt(due) > ticks[last];
    const end = beyond ? xOf(total) : duePoint >= 0 ? xOf(places[duePoint]) : Math.max(x, xOf(placeOfTick(BigInt(due))));
    if (end < gutter) continue;
    free = x + apart;
    const lift = Math.min(high, 10 + (end - x) * 0.12);
    if (end - x > 4) {
      pen.strokeStyle = look.blue; pen.lineWidth = 1; pen.setLineDash([3, 2]);
      pen.beginPath(); pen.moveTo(x, base); pen.bezierCurveTo(x, base - lift, end, base - lift, end, base - 3); pen.stroke(); pen.setLineDash([]);
      pen.fillStyle = look.blue; pen.beginPath(); pen.moveTo(end - 3, base - 7); pen.lineTo(end + 3, base - 7); pen.lineTo(end, base - 1); pen.fill();
    }
    ring(x, base, look.paper);
    if (refilled >= 0) ring(xOf(places[refilled]), base, look.blue);
    const text = "+" + amount + (beyond ? " due " + due : ""), where = beyond ? x + 5 : end - text.length * 2.6;
    if (where > told && apart < 24) { write(text, where, base + 11, 9, look.blue); told = where + text.length * 5.6; }
  }
}
function ring(x, y, fill) {
  pen.beginPath(); pen.arc(x, y, 3, 0, 7); pen.fillStyle = fill; pen.fill(); pen.strokeStyle = look.blue; pen.lineWidth = 1; pen.stroke();
}
