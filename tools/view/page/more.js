// How many rows have no room: said at the edge of the picture behind which they are.
const EDGE = 18;
function rowHeights() {
  return [...data.threads.map((_, number) => ROW(number)), ...data.mutexes.map(() => sizes.object), ...(withLists ? lists.map(() => 16) : [])];
}
function hiddenRows() {
  const room = height - (scroll < whole() - height ? EDGE : 0);
  let y = AXIS + 6 - scroll, above = 0, below = 0;
  for (const high of rowHeights()) {
    // Of the row that an edge cuts it is the middle that counts.
    if (y + high / 2 < AXIS + (scroll ? EDGE : 0)) above++; else if (y + high > room) below++;
    y += high;
  }
  return whole() > height ? { above, below } : { above: 0, below: 0 };
}
function tellRows(text, y) {
  pen.font = "11px " + FONT;
  pen.fillStyle = look.paper; pen.fillRect(0, y, Math.max(gutter - 6, 14 + pen.measureText(text).width), EDGE);
  write(text, 8, y + EDGE - 5, 11, look.faint);
}
function drawMore() {
  const { above, below } = hiddenRows();
  if (above) tellRows("▲ " + above + " more", AXIS + 1);
  if (below) tellRows("▼ " + below + " more", height - EDGE);
}
overlays.push(drawMore);
