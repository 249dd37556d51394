// The editor of the script: CodeMirror where it is installed, and else a text area with line numbers. Both have the same functions.
import { defineMode } from "./mode.js";

const place = document.getElementById("editor");

function load(tag, more) {
  return new Promise((resolve, reject) => {
    const part = Object.assign(document.createElement(tag), more, { onload: resolve, onerror: reject });
    document.head.append(part);
  });
}

export async function editorOf(about, changed, leave) {
  if (!about.codemirror) return plainEditor(changed, leave);
  await Promise.all([load("link", { rel: "stylesheet", href: "codemirror/codemirror.css" }), load("script", { src: "codemirror/codemirror.js" })]);
  return codeEditor(window.CodeMirror, changed, leave);
}

function codeEditor(CodeMirror, changed, leave) {
  defineMode(CodeMirror);
  // Tab goes on to the next part of the page, as everywhere else.
  const code = CodeMirror(place, { mode: "pse52", lineNumbers: true, lineWrapping: true, indentUnit: 4, viewportMargin: 20, screenReaderLabel: "script",
    extraKeys: { Tab: false, "Shift-Tab": false, Esc: leave } });
  let marks = [], notes = [], lines = [], words = [], undone = 0;
  code.on("change", (_, { origin }) => { undone += origin === "undo"; changed(); });
  return {
    text: () => code.getValue(),
    write(text) { code.setValue(text); code.clearHistory(); },
    // What a slide did is one step to be undone.
    replace(line, from, to, text, slide) { code.replaceRange(text, { line, ch: from }, { line, ch: to }, "*slide" + slide + "." + undone); },
    undo: () => code.undo(),
    cursor: () => ({ line: code.getCursor().line, column: code.getCursor().ch }),
    // As if it were typed, so that it can be undone; the focus stays where it is.
    put(from, to, text) {
      const place = code.posFromIndex(from);
      code.replaceRange(text, place, code.posFromIndex(to)); code.setCursor(place); code.scrollIntoView(null, 80);
    },
    goTo(line, column) { code.focus(); code.setCursor({ line, ch: column }); code.scrollIntoView(null, 80); },
    focus: () => code.focus(),
    faults(found) {
      code.operation(() => {
        marks.forEach((mark) => mark.clear()); notes.forEach((note) => note.clear());
        lines.forEach((line) => code.removeLineClass(line, "background", "faulty-line"));
        const there = found.filter((fault) => fault.line <= code.lineCount());
        marks = there.filter((fault) => fault.word).map((fault) => code.markText({ line: fault.line - 1, ch: fault.column - 1 },
          { line: fault.line - 1, ch: fault.column - 1 + fault.word.length }, { className: "faulty", attributes: { title: fault.wrong } }));
        lines = there.map((fault) => code.addLineClass(fault.line - 1, "background", "faulty-line"));
        notes = there.map((fault) => {
          const note = Object.assign(document.createElement("div"), { className: "fault-note", textContent: fault.wrong + (fault.mend ? "; " + fault.mend : "") });
          return code.addLineWidget(fault.line - 1, note, { noHScroll: true });
        });
      });
    },
    changed(places) {
      code.operation(() => {
        words.forEach((word) => word.clear());
        words = places.map(({ line, from, to }) => code.markText({ line, ch: from }, { line, ch: to }, { className: "changed" }));
      });
    },
  };
}

function plainEditor(changed, leave) {
  const holder = Object.assign(document.createElement("div"), { id: "plain" });
  const numbers = document.createElement("pre"), area = document.createElement("textarea");
  Object.assign(area, { spellcheck: false, wrap: "off" });
  area.setAttribute("aria-label", "script"); area.setAttribute("autocapitalize", "off"); numbers.setAttribute("aria-hidden", "true");
  holder.append(numbers, area); place.append(holder);
  let faulty = new Set(), steps = [];
  const starts = (line) => area.value.split("\n").slice(0, line).reduce((sum, text) => sum + text.length + 1, 0);
  function number() {
    const count = area.value.split("\n").length;
    numbers.replaceChildren(...Array.from({ length: count }, (_, line) => [faulty.has(line + 1)
      ? Object.assign(document.createElement("b"), { textContent: line + 1 }) : String(line + 1), "\n"]).flat());
    numbers.scrollTop = area.scrollTop;
  }
  area.addEventListener("scroll", () => { numbers.scrollTop = area.scrollTop; });
  area.addEventListener("input", () => { number(); changed(); });
  // What is typed the browser undoes; what the page put into the script it does not. Says whether that was undone.
  function undo() {
    if (!steps.length || steps[steps.length - 1].after !== area.value) return false;
    area.value = steps.pop().before; number(); changed();
    return true;
  }
  function putInto(text, from, to, place, slide) {
    const before = area.value, top = steps[steps.length - 1];
    area.setRangeText(text, from, to, place);
    if (slide && top && top.slide === slide && top.after === before) top.after = area.value; else steps.push({ before, after: area.value, slide });
    number(); changed();
  }
  area.addEventListener("keydown", (key) => {
    if (key.key === "Escape") { key.preventDefault(); leave(); }
    if (key.key === "z" && key.ctrlKey && undo()) key.preventDefault();
  });
  return {
    text: () => area.value,
    write(text) { area.value = text; steps = []; number(); changed(); },
    replace(line, from, to, text, slide) { const start = starts(line); putInto(text, start + from, start + to, "preserve", slide); },
    undo,
    put(from, to, text) {
      putInto(text, from, to, "start", 0);
      area.scrollTop = Math.max(0, (area.value.slice(0, from).split("\n").length - 5) * 19.5);
    },
    cursor() {
      const before = area.value.slice(0, area.selectionStart).split("\n");
      return { line: before.length - 1, column: before[before.length - 1].length };
    },
    goTo(line, column) {
      area.focus(); area.setSelectionRange(starts(line) + column, starts(line) + column);
      area.scrollTop = Math.max(0, (line - 4) * 19.5);
    },
    focus: () => area.focus(),
    faults(found) { faulty = new Set(found.map((fault) => fault.line)); number(); },
    changed() { /* a text area cannot mark words; the list of changed lines tells them */ },
  };
}
