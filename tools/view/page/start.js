// The page begins with the run that stands in it.
take(JSON.parse(document.getElementById("data").textContent));
measure(); overview();
element("title").textContent = document.title;
element("lists").hidden = !data.detail;
canvas.setAttribute("aria-label", document.title + ". The events and the states at the cursor's tick stand beside it as text.");
setDark(window.matchMedia("(prefers-color-scheme: dark)").matches);
legend(); showAll(); tell();
