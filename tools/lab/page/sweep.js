// A slider for one number of the script. It changes the script itself, and the picture follows. One undo takes back all that it did.
const element = (id) => document.getElementById(id);
const LONGEST_BEFORE = 18;
let where = null, slides = 0;

const numbersOf = (line) => [...line.split("#")[0].matchAll(/(?<![\w])\d+(?![\w])/g)];

// Begins at the number at the cursor, or else at the first one of its line. Says why where it does not.
export function begin(editor) {
  const { line, column } = editor.cursor(), lines = editor.text().split("\n"), found = numbersOf(lines[line] || "");
  if (!found.length) return "Line " + (line + 1) + " has no number for a slider: set the cursor on one in the script.";
  const number = Math.max(0, found.findIndex((one) => one.index <= column && column <= one.index + one[0].length)), value = Number(found[number][0]);
  if (!Number.isSafeInteger(value)) return "The number " + found[number][0] + " is too great for a slider.";
  where = { line, number, lines }; slides += 1;
  Object.assign(element("value"), { min: 0, max: Math.max(10, 2 * value), step: 1 });
  element("least").value = "0"; element("most").value = String(Math.max(10, 2 * value));
  tell(value);
  return "";
}
// The number stands in its line, of which a long beginning is left out.
function tell(value) {
  const line = where.lines[where.line], { index, 0: digits } = numbersOf(line)[where.number], before = line.slice(0, index).trimStart();
  element("behind").textContent = "line " + (where.line + 1) + ": " + (before.length > LONGEST_BEFORE ? "…" + before.slice(-LONGEST_BEFORE) : before);
  element("onward").textContent = line.slice(index + digits.length).trimEnd();
  element("value").value = value; element("number").textContent = value;
}
export function bounds() {
  const least = Number(element("least").value), most = Number(element("most").value);
  // Between other bounds, as those of a bound that is half written, the slider stands at its end: then it goes back to the number.
  if (Number.isSafeInteger(least) && Number.isSafeInteger(most) && 0 <= least && least < most)
    Object.assign(element("value"), { min: least, max: most, value: element("number").textContent });
}
// Where the line of the number stands behind a change of the script; -1 where it is there no more.
function lineIn(lines) {
  const { line, lines: before } = where, shift = lines.length - before.length;
  const stays = (from, to, by) => before.slice(from, to).every((text, at) => text === lines[from + by + at]);
  if (stays(0, line + 1, 0)) return line;
  if (stays(line, before.length, shift)) return line + shift;
  return shift === 0 && stays(0, line, 0) && stays(line + 1, before.length, 0) ? line : -1;
}
// Follows the number as the script is changed, and says whether it is still there.
export function follow(editor) {
  const lines = editor.text().split("\n"), line = lineIn(lines), found = numbersOf(lines[line] || "")[where.number];
  if (!found || !Number.isSafeInteger(Number(found[0]))) return false;
  where = { line, number: where.number, lines };
  if (Number(found[0]) > Number(element("value").max)) element("value").max = element("most").value = found[0];
  tell(Number(found[0]));
  return true;
}
export function slide(editor) {
  const found = numbersOf(where.lines[where.line])[where.number], value = element("value").value;
  if (found[0] !== value) editor.replace(where.line, found.index, found.index + found[0].length, value, slides);
}
