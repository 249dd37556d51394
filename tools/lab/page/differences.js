// What differs between two scripts, and between two runs.
const NO_WORDS = { words: [], lines: [] };
const MOST_LINES = 1500, MOST_SHIFT = 20;

// Pairs of line numbers of the longest common part of two lists of lines.
function common(one, other) {
  const wide = other.length + 1, length = new Uint16Array((one.length + 1) * wide);
  for (let i = one.length - 1; i >= 0; i--) for (let j = other.length - 1; j >= 0; j--)
    length[i * wide + j] = one[i] === other[j] ? length[(i + 1) * wide + j + 1] + 1 : Math.max(length[(i + 1) * wide + j], length[i * wide + j + 1]);
  const pairs = [];
  for (let i = 0, j = 0; i < one.length && j < other.length;) {
    if (one[i] === other[j]) pairs.push([i++, j++]);
    else if (length[(i + 1) * wide + j] >= length[i * wide + j + 1]) i++; else j++;
  }
  return pairs;
}
const wordsOf = (line) => [...line.matchAll(/\S+/g)];
const shared = (one, other) => { const words = wordsOf(one).map((word) => word[0]); return wordsOf(other).filter((word) => words.includes(word[0])).length; };

// Pairs of two lists: the shorter one lies beside the longer where the pairs are most alike, and null stands beside the rest.
function paired(one, other, alike) {
  const long = Math.max(one.length, other.length), room = long - Math.min(one.length, other.length), at = (list, shift, n) => list[list.length < long ? n - shift : n] ?? null;
  let best = 0, most = -1;
  for (let shift = 0; shift <= Math.min(room, MOST_SHIFT); shift++) {
    let sum = 0;
    for (let n = 0; n < long; n++) { const a = at(one, shift, n), b = at(other, shift, n); if (a !== null && b !== null) sum += alike(a, b); }
    if (sum > most) { most = sum; best = shift; }
  }
  return Array.from({ length: long }, (_, n) => [at(one, best, n), at(other, best, n)]);
}

// The words of `now` that `kept` does not have, with their places, and the lines that differ: [number, kept, now].
export function scriptsDiffer(kept, now) {
  const one = kept.split("\n"), other = now.split("\n"), places = [], lines = [];
  if (one.length > MOST_LINES || other.length > MOST_LINES) return NO_WORDS;
  let i = 0, j = 0;
  for (const [endI, endJ] of [...common(one, other), [one.length, other.length]]) {
    const numbers = Array.from({ length: endJ - j }, (_, n) => j + n);
    for (const [before, number] of paired(one.slice(i, endI), numbers, (text, at) => shared(text, other[at]))) {
      const after = number === null ? null : other[number];
      lines.push([after === null ? null : number + 1, before, after]);
      if (after === null) continue;
      const had = before === null ? [] : wordsOf(before).map((word) => word[0]);
      wordsOf(after).forEach((word, place) => { if (had[place] !== word[0]) places.push({ line: number, from: word.index, to: word.index + word[0].length }); });
    }
    i = endI + 1; j = endJ + 1;
  }
  return { words: places, lines };
}

const pieces = (thread, ticks) => thread.spans.map(([from, to, ...state]) => [ticks[from], ticks[to], state.join(" ")]);

// Where the state of a thread is another one: stretches [from, to) in ticks.
function threadsDiffer(one, other) {
  const edges = [...new Set([...one, ...other].flatMap(([from, to]) => [from, to]))].sort((a, b) => (a < b ? -1 : a > b ? 1 : 0));
  const found = [];
  let i = 0, j = 0;
  for (let n = 0; n + 1 < edges.length; n++) {
    const at = edges[n];
    while (i < one.length && one[i][1] <= at) i++;
    while (j < other.length && other[j][1] <= at) j++;
    const a = i < one.length && one[i][0] <= at ? one[i][2] : "", b = j < other.length && other[j][0] <= at ? other[j][2] : "";
    if (a === b) continue;
    if (found.length && found[found.length - 1][1] === at) found[found.length - 1][1] = edges[n + 1]; else found.push([at, edges[n + 1]]);
  }
  return found;
}

// The instants at which other lines stand, rising.
function linesDiffer(one, other) {
  const byTick = (data) => {
    const said = new Map();
    data.lines.forEach((line, n) => { const tick = data.ticks[data.at[n]]; said.set(tick, (said.get(tick) || "") + line + "\n"); });
    return said;
  };
  const a = byTick(one), b = byTick(other);
  return [...new Set([...a.keys(), ...b.keys()])].filter((tick) => a.get(tick) !== b.get(tick)).map(BigInt).sort((x, y) => (x < y ? -1 : x > y ? 1 : 0));
}

export function runsDiffer(one, other) {
  const ticks = [one, other].map((data) => data.ticks.map(BigInt)), threads = {};
  for (const name of new Set([...one.threads, ...other.threads].map((thread) => thread.name))) {
    const [a, b] = [one, other].map((data, n) => { const thread = data.threads.find((said) => said.name === name); return thread ? pieces(thread, ticks[n]) : []; });
    const found = threadsDiffer(a, b);
    if (found.length) threads[name] = found;
  }
  const starts = [...Object.values(threads).flat().map(([from]) => from), ...linesDiffer(one, other)];
  const instants = [...new Set(starts)].sort((x, y) => (x < y ? -1 : x > y ? 1 : 0));
  return { threads, instants };
}
