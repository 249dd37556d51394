// Asks the server for runs. Of one pane the newest script counts: one request is under way, and what was typed meanwhile follows it.
const PATIENCE = 400, LONG = 700;

// A word for this tab, which it keeps where the page is loaded again, so that a run of another tab is left alone. It is in the storage
// only between two pages of the tab: a copy of the tab copies the storage too.
function tabWord() {
  const fresh = crypto.getRandomValues(new Uint32Array(3)).join("-");
  try {
    const word = sessionStorage.getItem("tab") ?? fresh;
    window.addEventListener("pageshow", () => sessionStorage.removeItem("tab"));
    window.addEventListener("pagehide", () => sessionStorage.setItem("tab", word));
    return word;
  } catch { return fresh; }
}
const TAB = tabWord();

export async function ask(pane, form, script, horizon, title) {
  const query = new URLSearchParams({ pane, form, horizon, title, tab: TAB });
  try {
    const answer = await fetch("run?" + query, { method: "POST", body: script, headers: { "Content-Type": "text/plain" } });
    return answer.ok ? await answer.json() : { why: (await answer.text()).trim() };
  } catch { return { why: "the server does not answer: start bin/pse52-lab again, and give it this link" }; }
}

export class Runs {
  // `linger` is called where an answer does not come soon.
  constructor(pane, show, linger = () => {}) { this.pane = pane; this.show = show; this.linger = linger; this.number = 0; this.since = 0; this.waiting = null; }

  // Runs a script; `since` is when the key was pressed that asked for it.
  run(script, horizon, title, since) {
    this.waiting = { script, horizon, title, since };
    const busy = this.since && performance.now() - this.since < PATIENCE;
    if (busy) { clearTimeout(this.clock); this.clock = setTimeout(() => this.send(), PATIENCE); } else this.send();
  }
  async send() {
    if (!this.waiting) return;
    clearTimeout(this.clock);
    const wanted = this.waiting, number = ++this.number;
    this.waiting = null; this.since = performance.now();
    clearTimeout(this.patience);
    this.patience = setTimeout(this.linger, LONG);
    const told = await ask(this.pane, "picture", wanted.script, wanted.horizon, wanted.title);
    if (number !== this.number) return;
    clearTimeout(this.patience);
    this.since = 0;
    // What was typed meanwhile is asked for before this answer is drawn.
    if (this.waiting) this.send();
    this.show(told, wanted);
  }
  // No answer to what was asked for is wanted any more.
  forget() { this.number++; this.since = 0; this.waiting = null; clearTimeout(this.clock); clearTimeout(this.patience); }
}
