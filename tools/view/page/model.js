"use strict";
// The page of pse52-view html: what the data says. A point is an instant at which something happens; all data names points by number.
let data, ticks, places, cuts, total, last, lists;
const [RUNNING, READY, WAITING] = [0, 1, 2];
const STATE_NAMES = ["runs", "is ready", "waits", "does not run"];

// Takes the data of a run in the place of what was here. measure() must follow, and then draw() and tell().
function take(given) {
  data = given;
  ticks = data.ticks.map(BigInt); places = data.places; cuts = new Set(data.cuts);
  total = Math.max(places[places.length - 1], 1); last = ticks.length - 1;
  lists = factsOf("list").map(([priority, changes]) => [Number(priority), changes]).sort((a, b) => b[0] - a[0]);
}

// The last number whose value is at most the wanted one.
function lastAtMost(count, value, wanted) {
  let low = 0, high = count - 1;
  while (low < high) {
    const middle = (low + high + 1) >> 1;
    if (value(middle) <= wanted) low = middle; else high = middle - 1;
  }
  return low;
}
const pointAt = (where) => lastAtMost(places.length, (i) => places[i], where);

// The tick that a place lies in, and the place at which that tick begins.
function tickAt(where) {
  const point = pointAt(where);
  if (point >= last) return { tick: ticks[point], point, start: places[point], wide: 0 };
  const gap = Number(ticks[point + 1] - ticks[point]), span = places[point + 1] - places[point];
  const number = Math.min(gap - 1, Math.floor((where - places[point]) / span * gap + 1e-6));
  return { tick: ticks[point] + BigInt(number), point, start: places[point] + number / gap * span, wide: span / gap };
}
function placeOfTick(tick) {
  const point = lastAtMost(ticks.length, (i) => ticks[i], tick);
  if (point >= last) return places[point];
  const share = Number(tick - ticks[point]) / Number(ticks[point + 1] - ticks[point]);
  return places[point] + share * (places[point + 1] - places[point]);
}

function spanOf(thread, point) {
  if (!thread.spans.length) return null;
  const span = thread.spans[lastAtMost(thread.spans.length, (i) => thread.spans[i][0], point)];
  return span[0] <= point && point < span[1] ? span : null;
}
function capacityOf(thread, at) {
  if (!thread.capacity.length) return null;
  const piece = thread.capacity[lastAtMost(thread.capacity.length, (i) => thread.capacity[i][0], at.point)];
  if (piece[0] > at.point) return null;
  const gone = piece[3] ? at.tick - ticks[piece[0]] : 0n, value = BigInt(piece[2]) - gone;
  return value > 0n ? value : 0n;
}

// What a fact says at a point: facts are lists of [point, words], rising.
function factAt(changes, point) {
  if (!changes.length || changes[0][0] > point) return "";
  return changes[lastAtMost(changes.length, (i) => changes[i][0], point)][1];
}
const factsOf = (word) => Object.entries(data.facts).filter(([name]) => name.startsWith(word + " ")).map(([name, changes]) => [name.slice(word.length + 1), changes]);
const FACTS = [["mutex", "mutex"], ["waiters", "waiting for"], ["sem", "semaphore"], ["messages", "queue"], ["senders", "sending to"], ["receivers", "receiving from"],
  ["notify", "to be notified of"], ["timer", "timer"], ["signal", "pending"], ["mask", "mask of"],
  ["cancelability", "cancellation of"], ["cleanups", "cleanups of"], ["pending", "replenishments of"]];

// A state in words, as a thread has it in a span.
function inWords(span) {
  const [, , state, priority, high, call, kind, what, until, frame, cleanup] = span;
  let text = STATE_NAMES[state];
  if (state === RUNNING) text += " at priority " + priority + (high === 0 ? " (the server's low)" : "");
  else if (state === READY && data.detail) text += " at priority " + priority;
  else if (state === WAITING && kind) text += (call ? " in " + call : "") + (what ? " for the " + (kind === "join" ? "thread" : kind) + " " + what : "") + (until ? " until " + until : "");
  else if (call) text += " in " + call;
  return text + (frame ? ", in the " + (cleanup ? "cleanup" : "signal") + " handler " + frame : "");
}
