// The refusals of a script: at their line and word, and in a list below with what to write.
const list = document.getElementById("faults");

export function showFaults(editor, found) {
  editor.faults(found);
  list.replaceChildren(...found.map((fault) => {
    const item = document.createElement("li"), place = document.createElement("b");
    place.textContent = "line " + fault.line + (fault.column ? ", column " + fault.column : "") + ": " + fault.kind;
    item.append(place, " ", fault.wrong);
    for (const text of [fault.mend, ...fault.asides.map((aside) => "line " + aside.line + ": " + aside.why)].filter(Boolean))
      item.append(Object.assign(document.createElement("span"), { className: "mend", textContent: "→ " + text }));
    item.tabIndex = 0;
    item.onclick = () => editor.goTo(fault.line - 1, Math.max(0, fault.column - 1));
    // The key is done with then: the script, which has the focus, would take it for a new line.
    item.onkeydown = (key) => { if (key.key === "Enter") { key.preventDefault(); item.onclick(); } };
    return item;
  }));
}
