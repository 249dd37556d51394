// Dark or light: as the browser says, up to a choice, which stays with the page.
const CHOICE = "look", browsers = window.matchMedia("(prefers-color-scheme: dark)");

function choice() {
  try { return localStorage.getItem(CHOICE); } catch { return null; }
}
const isDark = () => document.documentElement.classList.contains("dark");
const isWanted = () => choice() === null ? browsers.matches : choice() === "dark";

// Chooses the other one, for this page and its next one.
export function chooseOther(show) {
  const dark = !isDark();
  try { localStorage.setItem(CHOICE, dark ? "dark" : "light"); } catch { /* no storage here: it is for this page alone */ }
  show(dark);
}
// Shows what is wanted, from now on.
export function follow(show) {
  browsers.addEventListener("change", () => show(isWanted()));
  show(isWanted());
}
document.documentElement.classList.toggle("dark", isWanted());
