// The lines in which two scripts differ, as a list: of a long one what is the same is left out.
const MOST_LINES = 40, LONG = 60, AROUND = 3;
const wordsOf = (line) => line.split(/\s+/).filter(Boolean);

// How many words of two lines are the same at their beginning, and at their end behind that.
function same(one, other) {
  const most = Math.min(one.length, other.length);
  let first = 0, end = 0;
  while (first < most && one[first] === other[first]) first++;
  while (end < most - first && one[one.length - 1 - end] === other[other.length - 1 - end]) end++;
  return { first, end };
}
// What stands before the words that differ, these, and what stands behind them.
function partsOf(words, { first, end }) {
  const before = words.slice(0, first), behind = words.slice(words.length - end), isLong = words.join(" ").length > LONG;
  if (isLong && before.length > AROUND + 1) before.splice(0, before.length - AROUND, "…");
  if (isLong && behind.length > AROUND + 1) behind.splice(AROUND, behind.length, "…");
  return [before, words.slice(first, words.length - end), behind].map((part) => part.join(" "));
}
function lineOf([number, kept, now]) {
  const line = document.createElement("li"), one = wordsOf(kept || ""), other = wordsOf(now || ""), shared = same(one, other);
  line.append((number === null ? "gone" : "line " + number) + ": ");
  if (kept !== null) line.append(partsOf(one, shared).filter(Boolean).join(" ") + " ");
  if (now === null) return line;
  const [before, changed, behind] = partsOf(other, shared);
  line.append("→ ", before && before + " ", Object.assign(document.createElement("mark"), { textContent: changed }), behind && (changed && " ") + behind);
  return line;
}
export function showLines(list, lines) {
  list.replaceChildren(...lines.slice(0, MOST_LINES).map(lineOf));
  if (lines.length > MOST_LINES) list.append(Object.assign(document.createElement("li"), { textContent: "and " + (lines.length - MOST_LINES) + " more lines" }));
}
