// Opening, saving and exporting.
import { ask } from "./runs.js";

export function download(name, text, kind) {
  const link = document.createElement("a");
  link.href = URL.createObjectURL(new Blob([text], { type: kind }));
  link.download = name; link.click();
  setTimeout(() => URL.revokeObjectURL(link.href), 10_000);
}

const KINDS = { svg: ["svg", "image/svg+xml"], trace: ["trace", "text/plain"], detail: ["detail", "text/plain"] };
export async function exported(form, script, horizon, title) {
  const told = await ask("export", form, script, horizon, title);
  if (told.text === undefined) return told.why || "the script is refused: mend it first";
  const [ending, kind] = KINDS[form];
  download(title + "." + ending, told.text, kind);
  return "";
}

const GREATEST_SCRIPT = 1_048_576;
// The text of a file. Throws why there is none.
export async function opened(file) {
  if (file.size > GREATEST_SCRIPT) throw new Error(file.name + " is no script: one has at most " + GREATEST_SCRIPT + " bytes.");
  try { return await file.text(); } catch { throw new Error(file.name + " cannot be read."); }
}
// Opens what is dropped on a page, before a part of it takes it for its own.
export function openDropped(page, open) {
  const hasFile = (drag) => drag.dataTransfer && drag.dataTransfer.types.includes("Files");
  page.addEventListener("dragover", (drag) => { if (hasFile(drag)) drag.preventDefault(); }, true);
  page.addEventListener("drop", (drop) => {
    if (!hasFile(drop)) return;
    drop.preventDefault(); drop.stopPropagation();
    if (drop.dataTransfer.files.length) open(drop.dataTransfer.files[0]);
  }, true);
}
