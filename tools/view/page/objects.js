// What stands between threads: the owners of mutexes, the lists, and who wakes whom.
// How much of each small column a mutex is owned, from below: first where others wait for it.
function drawOwnedShares(mutex, y) {
  let shares = [0, 0];
  inColumns(mutex.bars, ([, , , waiting], part) => { shares[waiting ? 1 : 0] += part; }, (x) => {
    let base = y + sizes.object - 6;
    for (const [share, colour] of [[shares[1], look.contended], [shares[0], look.owner]]) {
      const high = (sizes.object - 6) * share;
      base -= high; pen.fillStyle = colour; pen.fillRect(x, base, BIN, high);
    }
    shares = [0, 0];
  });
}
function drawOwners(mutex, y) {
  write(fitted(mutex.name, 10), 8, y + sizes.object - 8, 10, look.faint);
  if (isCrowded(mutex.bars)) { drawOwnedShares(mutex, y); return; }
  for (let i = firstFrom(mutex.bars); i < mutex.bars.length; i++) {
    const [from, to, , waiting] = mutex.bars[i], x = Math.max(gutter, xOf(places[from])), end = xOf(places[to]);
    if (x > width) break;
    if (end < gutter) continue;
    pen.fillStyle = waiting ? look.contended : look.owner; pen.fillRect(x, y, Math.max(0.6, end - x), sizes.object - 6);
  }
  nameOwners(mutex.bars, y + sizes.object - 9);
}
// The name of each owner in its bars; where none of those that touch has room for it, across them, behind them or from them on.
function nameOwners(bars, y) {
  for (let i = firstFrom(bars); i < bars.length && xOf(places[bars[i][0]]) <= width;) {
    const owner = bars[i][2];
    const start = xOf(places[bars[i][0]]);
    let next = i, named = false;
    do named = label([owner], xOf(places[bars[next][0]]), xOf(places[bars[next][1]]), y, LEAST_TEXT, look.ink) || named;
    while (++next < bars.length && bars[next][2] === owner && bars[next][0] === bars[next - 1][1]);
    const end = xOf(places[bars[next - 1][1]]), until = next < bars.length ? Math.min(width, xOf(places[bars[next][0]])) : width;
    const wide = owner.length * LEAST_TEXT * 0.62 + 6, from = until - end > wide ? end : Math.max(gutter, start);
    if (!named && !label([owner], start, end, y, LEAST_TEXT, look.ink) && end >= gutter && until - from > wide) write(owner, from + 3, y, LEAST_TEXT, look.ink);
    i = next;
  }
}
function drawList(priority, changes, y) {
  write("list " + priority, 8, y + 10, 9.5, look.faint);
  for (let i = firstFrom(changes); i < changes.length; i++) {
    const [from, members] = changes[i], to = i + 1 < changes.length ? changes[i + 1][0] : last;
    const x = Math.max(gutter, xOf(places[from])), end = xOf(places[to]);
    if (x > width) break;
    if (!members || end < gutter) continue;
    pen.strokeStyle = look.line; pen.lineWidth = 1; pen.strokeRect(x, y, end - x, 13);
    label([members, members.split(" ")[0]], x, end, y + 10, 8.5, look.ink);
  }
}
function drawWakes(bars) {
  const from = data.wakes.length ? lastAtMost(data.wakes.length, (i) => places[data.wakes[i][0]], left) : 0;
  const seen = data.wakes.slice(from).filter(([point]) => xOf(places[point]) >= gutter && xOf(places[point]) <= width);
  if (seen.length > (width - gutter) / 4) return;
  for (const [point, waker, woken] of seen) {
    const x = xOf(places[point]), down = bars[woken] > bars[waker];
    const y = bars[waker] + (down ? sizes.bar : 0), end = bars[woken] + (down ? 0 : sizes.bar), side = down ? -5 : 5;
    pen.strokeStyle = pen.fillStyle = look.arrow; pen.lineWidth = 1.1;
    pen.beginPath(); pen.moveTo(x, y); pen.bezierCurveTo(x - 7, (y + end) / 2, x - 7, (y + end) / 2, x, end); pen.stroke();
    pen.beginPath(); pen.moveTo(x, end); pen.lineTo(x - 4, end + side); pen.lineTo(x + 2, end + side); pen.fill();
  }
}
