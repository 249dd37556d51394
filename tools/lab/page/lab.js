// The page to work in: puts the editor, the runs, the pictures and what is around them together.
import { addressOf, fromAddress, isTooLong, leaveInAddress, toAddress } from "./address.js";
import { runsDiffer, scriptsDiffer } from "./differences.js";
import { editorOf } from "./editor.js";
import { showFaults } from "./faults.js";
import { download, exported, openDropped, opened } from "./files.js";
import { chooseOther, follow } from "./look.js";
import { Runs } from "./runs.js";
import * as sweep from "./sweep.js";
import { showLines } from "./words.js";

const element = (id) => document.getElementById(id);
const HORIZON = /^\s*#\s*horizon (\d+)\b/;
let about, editor, pictures, runs;
const NONE = { threads: {}, instants: [] };
let example = null, named = "", kept = null, keptRan = null, cursor = 0n, ran = null, ranScript = null, difference = NONE, compared = false, quiet = false, showing = false, pressedAt = 0, notice = "", noSlider = "";

const script = () => editor.text();
const horizon = () => element("horizon").value.trim();
const title = () => lesson() ? example.name : named || "script";
const say = (text) => { element("state").textContent = text; };

// ---- runs

function changed() {
  if (quiet) return;
  if (!element("slider").hidden && !sweep.follow(editor)) { showSlider(false); notice = "The number of the slider is no more in the script."; }
  runNow(); tellChanges(); remember();
}
const NO_HORIZON = "The horizon is a number of ticks from 0 to 10^18.";
const hasHorizon = () => /^\d{1,19}$/.test(horizon()) && BigInt(horizon()) <= 10n ** 18n;
function runNow() {
  const since = pressedAt;
  pressedAt = 0;
  if (hasHorizon()) { runs.a.run(script(), horizon(), title(), since); return; }
  runs.a.forget(); document.body.classList.add("stale"); say(NO_HORIZON);
}
function runKept() { if (kept !== null && hasHorizon()) runs.b.run(kept, horizon(), title(), 0); }
function shownA(told, wanted) {
  showFaults(editor, told.faults || []);
  document.body.classList.toggle("stale", !told.data);
  say(told.faults ? told.faults.length + (told.faults.length === 1 ? " fault" : " faults") + (ran ? "; the picture is that of the script before" : "") : told.why || told.warning || notice);
  notice = "";
  if (!told.data) return;
  ran = told; ranScript = wanted.script;
  put("a", told.data);
  element("sources").textContent = "Trace: " + told.trace + ". Facts: " + told.facts + (told.facts === "the reference" ? ", of which nothing is proved." : ".");
  compare();
  // The frame that shows it is the next one. Where no key asked for the run, nothing is said of the time.
  requestAnimationFrame(() => setTimeout(() => {
    window.lab.latency = wanted.since ? performance.now() - wanted.since : 0; window.lab.drawn = wanted.script;
    element("time").textContent = wanted.since ? "Drawn " + Math.round(window.lab.latency) + " ms after the last key." : "";
  }));
}
// Shows a run in a pane, with its cursor at the tick of the page, which stays where a run is shorter than that.
function put(pane, data) {
  showing = true;
  pictures[pane].show(data, cursor);
  showing = false;
}

// ---- two runs

function shownB(told) {
  if (!told.data) { element("differs").textContent = told.why || "The kept script is refused."; element("next").disabled = true; return; }
  keptRan = told;
  put("b", told.data); compare();
}
// What is kept is what the picture shows: where the script of now is refused, the one before.
const shownScript = () => document.body.classList.contains("stale") && ran ? ranScript : script();
function keep(text) {
  kept = text; keptRan = null;
  const two = kept !== null;
  element("beside").setAttribute("aria-pressed", String(two));
  element("figure_b").hidden = element("compared").hidden = !two;
  document.body.classList.toggle("two", two);
  runs.b.forget(); runKept(); compare(); remember();
}
function compare() {
  if (!ran || !keptRan) { forgetDifferences(); return; }
  compared = true;
  const words = scriptsDiffer(kept, script());
  editor.changed(words.words);
  showLines(element("words"), words.lines);
  difference = runsDiffer(pictures.b.data(), pictures.a.data());
  pictures.a.differ(difference.threads); pictures.b.differ(difference.threads);
  const count = difference.instants.length;
  element("differs").textContent = count ? "The runs differ at " + count + (count === 1 ? " instant" : " instants") + ", first at " + difference.instants[0] + "." : "The runs do not differ.";
  element("next").disabled = !count;
}
function forgetDifferences() {
  if (!compared) return;
  compared = false; difference = NONE;
  editor.changed([]); pictures.a.differ({}); pictures.b.differ({});
  element("differs").textContent = ""; element("words").replaceChildren(); element("next").disabled = true;
}
function nextDifference() {
  if (!difference.instants.length) return;
  const next = difference.instants.find((tick) => tick > cursor);
  pictures.a.goTo(next === undefined ? difference.instants[0] : next);
}

// ---- the course

function fillGallery() {
  const own = new Option("your own script", "");
  element("gallery").replaceChildren(own, ...about.gallery.map((one) => new Option(one.name.replaceAll("_", " "), one.name)));
}
// The example, as long as a thread of it is in the script.
const threadsOf = (text) => [...text.matchAll(/^\s*thread (\S+)/gm)].map((found) => found[1]);
function lesson() {
  const names = example ? threadsOf(example.script) : [];
  return threadsOf(script()).some((name) => names.includes(name)) ? example : null;
}
// Another script takes the place of this one: one that somebody wrote stays behind in the browser's way back.
function leave() { if (script().trim() && !(example && example.script === script())) leaveInAddress(now); }
function begin(name) {
  const found = about.gallery.find((one) => one.name === name);
  if (found) start({ text: found.script, of: found, ticks: String(found.horizon) });
}
function start({ text, of = null, name = "", ticks = "", at = 0n, beside = null }) {
  example = of; named = name; cursor = at;
  element("horizon").value = ticks || (HORIZON.exec(text) || [])[1] || horizon();
  quiet = true; editor.write(text); quiet = false;
  showSlider(false);
  runNow(); tellChanges(); keep(beside);
}
function tellChanges() {
  const text = script(), of = lesson();
  tellExample(of);
  element("lesson").classList.toggle("none", !of);
  element("sentence").textContent = of ? of.look : "";
  element("changes").replaceChildren(...(of ? of.changes : []).map((change) => {
    const button = Object.assign(document.createElement("button"), { disabled: !text.includes(change.find) });
    // What stands between backquotes is of the script.
    button.append(...change.say.split("`").map((part, number) => number % 2 ? Object.assign(document.createElement("code"), { textContent: part }) : part));
    button.onclick = () => make(change);
    return button;
  }));
}
// An example that was changed is another line of the menu, so that the one of the course can be chosen again.
function tellExample(of) {
  const other = of && (script() !== of.script || horizon() !== String(of.horizon)), menu = element("gallery");
  menu.options[0].text = other ? of.name.replaceAll("_", " ") + ", changed" : "your own script";
  menu.value = of && !other ? of.name : "";
}
// Makes a change, and keeps the run before it beside. The keys then belong to the picture.
function make(change) {
  const text = script(), at = text.indexOf(change.find);
  if (at < 0) return;
  pressedAt = performance.now();
  if (kept === null) keep(shownScript());
  editor.put(at, at + change.find.length, change.put);
  pictures.a.focus(true);
}

// ---- the address

function now() {
  const text = script(), same = example && example.script === text;
  return { example: example ? example.name : "", script: same ? null : text, horizon: horizon(), cursor, beside: kept };
}
function remember() { if (!quiet) toAddress(now); }
function readAddress() {
  const said = fromAddress(), of = about.gallery.find((one) => one.name === said.example) || null;
  if (!of && said.script === null && location.hash.length > 1) notice = "The link has no script, and names no example of the course" + (said.example ? ": " + said.example : "") + ".";
  if (of || said.script !== null) start({ text: said.script !== null ? said.script : of.script, of, ticks: said.horizon || (of ? String(of.horizon) : ""),
    at: said.cursor ? BigInt(said.cursor) : 0n, beside: said.beside });
  else if (about.gallery.length) begin(about.gallery[0].name);
  else start({ text: "thread a fifo 5 at 0\n    run 3\nend\n" });
}

// ---- keys and buttons

function setDark(on) {
  document.documentElement.classList.toggle("dark", on);
  for (const picture of Object.values(pictures)) picture.dark(on);
}
async function open(file) {
  try { const text = await opened(file); leave(); start({ text, name: file.name.replace(/\.\w+$/, "") }); } catch (wrong) { say(wrong.message); }
}
function save() { download(title() + ".task", script(), "text/plain"); }
function toggleHelp() { element("keys").hidden = !element("keys").hidden; element("help").setAttribute("aria-expanded", String(!element("keys").hidden)); }
function showSlider(on) { element("slider").hidden = !on; element("sweep").setAttribute("aria-pressed", String(on)); }
function toggleSweep() {
  const why = element("slider").hidden ? sweep.begin(editor) : "", on = element("slider").hidden && !why;
  showSlider(on);
  if (why || element("state").textContent === noSlider) say(why);
  noSlider = why;
  if (on) element("value").focus();
}
const KEYS = { e: () => editor.focus(), g: () => element("gallery").focus(), h: () => element("horizon").focus(), c: () => keep(kept === null ? shownScript() : null), s: toggleSweep, x: nextDifference,
  d: () => chooseOther(setDark), "?": toggleHelp };
const WITH_CONTROL = { s: save, o: () => element("file").click(), z: () => editor.undo() };
function pressed(key, control) {
  const does = (control ? WITH_CONTROL : KEYS)[key];
  if (does) does();
  return Boolean(does);
}
function moved(side, tick) {
  if (!pictures || showing) return;
  cursor = tick;
  const other = pictures[side === "a" ? "b" : "a"];
  // The other one follows; where its run is shorter, or not there yet, it stands at its end, and the cursor does not.
  showing = true;
  if (kept !== null && other.tick() !== tick) other.goTo(tick);
  showing = false;
  remember();
}
window.addEventListener("keydown", (key) => {
  pressedAt = key.timeStamp;
  const at = key.target, slides = at.type === "range", inField = ["INPUT", "TEXTAREA", "SELECT"].includes(at.tagName) || at.isContentEditable;
  if (!pictures || key.altKey || key.metaKey || (slides && /^(Arrow|Page|Home|End)/.test(key.key))) return;
  // From the script it is the editor that leaves.
  if (inField && key.key === "Escape" && !element("editor").contains(at)) { pictures.a.focus(); key.preventDefault(); return; }
  if (inField && !slides && (!key.ctrlKey || key.key === "z")) return;
  const onButton = key.target.tagName === "BUTTON" && (key.key === "Enter" || key.key === " ");
  if (!onButton && (pressed(key.key, key.ctrlKey) || (!key.ctrlKey && pictures.a.press(key.key)))) key.preventDefault();
}, true);

function wire() {
  element("gallery").onchange = () => { if (element("gallery").value) { leave(); begin(element("gallery").value); } else start({ text: script(), name: named }); };
  element("horizon").oninput = () => { runNow(); tellExample(lesson()); runKept(); remember(); };
  element("beside").onclick = KEYS.c; element("sweep").onclick = toggleSweep; element("next").onclick = nextDifference;
  element("back").onclick = () => { const text = kept; leave(); keep(null); editor.write(text); };
  element("least").oninput = element("most").oninput = sweep.bounds;
  element("value").oninput = () => { pressedAt = performance.now(); sweep.slide(editor); };
  element("open").onclick = WITH_CONTROL.o; element("save").onclick = save;
  element("file").onchange = async () => { if (element("file").files.length) await open(element("file").files[0]); element("file").value = ""; };
  for (const page of [window, element("a").contentWindow, element("b").contentWindow]) openDropped(page, open);
  element("export").onchange = async () => { const form = element("export").value; element("export").value = ""; if (form) say(hasHorizon() ? await exported(form, script(), horizon(), title()) : NO_HORIZON); };
  element("link").onclick = async () => {
    const said = addressOf(now()), link = location.href.split("#")[0] + said;
    if (isTooLong(said)) { say("The script is too long for a link: save it, and hand on the file."); return; }
    try { await navigator.clipboard.writeText(link); say("The link is copied."); } catch { history.replaceState(null, "", link); say("The link is in the address."); }
  };
  element("look").onclick = KEYS.d; element("help").onclick = toggleHelp;
  window.addEventListener("popstate", readAddress);
}

function pictureOf(id) {
  const frame = element(id);
  return new Promise((resolve) => {
    const ready = () => frame.contentWindow.pane ? resolve(frame.contentWindow.pane) : setTimeout(ready, 5);
    ready();
  });
}
async function begun() {
  about = await (await fetch("about.json")).json();
  editor = await editorOf(about, changed, () => pictures.a.focus());
  pictures = { a: await pictureOf("a"), b: await pictureOf("b") };
  runs = { a: new Runs("a", shownA, () => { document.body.classList.add("stale"); say("The run is still being made."); }), b: new Runs("b", shownB) };
  fillGallery(); wire();
  follow(setDark);
  readAddress();
  editor.focus();
}
window.lab = { moved, pressed, latency: 0, drawn: "" };
begun();
