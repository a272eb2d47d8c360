// Parts of the page that change, ages that grow, the choice of signs, pictures that are held still.
"use strict";

const body = document.body;
let ahead = body.dataset.now ? Number(body.dataset.now) - Date.now() / 1000 : 0;

function ageWord(seconds) {
  if (seconds < -1) return "by a clock that was ahead";
  const whole = Math.max(0, Math.floor(seconds));
  if (whole >= 2 * 86400) return Math.floor(whole / 86400) + " d ago";
  if (whole >= 2 * 3600) return Math.floor(whole / 3600) + " h ago";
  if (whole >= 60) return Math.floor(whole / 60) + " min ago";
  return whole + " s ago";
}

function tellAges() {
  const now = Date.now() / 1000 + ahead;
  for (const time of document.querySelectorAll("time[data-at]")) {
    const words = ageWord(now - Number(time.dataset.at));
    if (time.textContent !== words) time.textContent = words;
  }
}

// ---- pictures

const still = document.getElementById("still");

function isStill() {
  return still !== null && still.getAttribute("aria-pressed") === "true";
}

function hold(within) {
  for (const image of within.querySelectorAll(".lamps img")) {
    const address = image.getAttribute("src").split("?")[0];
    const wanted = isStill() ? address + "?page=1" : address;
    if (image.getAttribute("src") !== wanted) image.src = wanted;
  }
}

function setStill(on) {
  still.setAttribute("aria-pressed", String(on));
  try { localStorage.setItem("still", on ? "1" : ""); } catch (fault) { /* a browser may keep nothing */ }
  hold(document);
}

// A link that leads elsewhere is another link: nothing that has the focus comes to mean something else.
function nameOf(one) {
  return one.nodeName === "A" ? one.getAttribute("href") : "";
}

// Makes an element as another one is, and leaves alone what is the same: the focus, and pictures, which take a while to
// draw, stay where they are.
function become(old, fresh) {
  if (old.isEqualNode(fresh)) return;
  if (old.nodeName !== fresh.nodeName || nameOf(old) !== nameOf(fresh)) { old.replaceWith(fresh); return; }
  if (old.nodeType !== Node.ELEMENT_NODE) { old.data = fresh.data; return; }
  for (const name of old.getAttributeNames()) if (!fresh.hasAttribute(name)) old.removeAttribute(name);
  for (const name of fresh.getAttributeNames()) {
    if (old.getAttribute(name) !== fresh.getAttribute(name)) old.setAttribute(name, fresh.getAttribute(name));
  }
  const before = [...old.childNodes], after = [...fresh.childNodes];
  before.slice(after.length).forEach((one) => one.remove());
  after.forEach((one, at) => { if (at < before.length) become(before[at], one); else old.append(one); });
}

function replace(name, html) {
  const old = document.getElementById(name);
  const made = document.createElement("template");
  made.innerHTML = html;
  const fresh = made.content.firstElementChild;
  if (!old || !fresh) return;
  hold(fresh);
  label(fresh.parentNode);
  const had = old.contains(document.activeElement) ? nameOf(document.activeElement) : "";
  become(old, fresh);
  if (had && document.activeElement === body) {
    const again = [...document.getElementById(name).querySelectorAll("a")].find((one) => nameOf(one) === had);
    if (again) again.focus();
  }
}

// On a small screen a row of a table is a list: each cell says what it is of.
function label(within) {
  for (const table of within.querySelectorAll("table")) {
    const names = [...table.querySelectorAll("thead th")].map((one) => one.querySelector(".hidden") ? "" : one.textContent.trim());
    for (const row of table.querySelectorAll("tbody tr")) {
      [...row.children].forEach((cell, at) => { if (names[at] && cell.colSpan === 1) cell.dataset.label = names[at]; });
    }
  }
}

// ---- events

const AGAIN = 5000; // milliseconds until a stream that was refused is asked for again

function listen(view) {
  const link = document.getElementById("link");
  const source = new EventSource("/events?view=" + encodeURIComponent(view));
  source.onopen = () => { link.textContent = "The page follows what happens."; };
  source.onerror = () => {
    link.textContent = "The page has lost the service, and tries again.";
    if (source.readyState === EventSource.CLOSED) listenAgain(view, link); // a browser gives up where an answer refuses
  };
  source.onmessage = (event) => {
    const parts = JSON.parse(event.data);
    if ("now" in parts) ahead = Number(parts.now) - Date.now() / 1000; // the database's clock jumped
    for (const name of Object.keys(parts)) replace(name, parts[name]);
    tellAges();
    choose();
  };
}

async function listenAgain(view, link) {
  try {
    const answer = await fetch("/account", {redirect: "manual"}); // who is not logged in is sent elsewhere
    if (answer.type === "opaqueredirect") {
      link.textContent = "Your log-in has ended. Load the page again to log in.";
      return;
    }
  } catch (fault) { /* the service is away */ }
  setTimeout(() => listen(view), AGAIN);
}

// ---- the wall

const find = document.getElementById("find");
const only = document.getElementById("only");
const wall = document.getElementById("wall");
const isWhole = wall !== null && wall.dataset.whole === "1"; // all signs are on this page: it finds among them by itself

function seen(card) {
  const inner = card.querySelector(".inner");
  const words = (card.dataset.words + " " + inner.querySelector("img, p").getAttribute("alt")).toLowerCase();
  return words.includes(find.value.trim().toLowerCase()) && (!only.value || inner.dataset.state === only.value);
}

function choose() {
  if (!find) return;
  let count = 0;
  for (const card of document.querySelectorAll(".card")) {
    card.hidden = isWhole && !seen(card);
    count += !card.hidden;
  }
  document.getElementById("nothing").hidden = count > 0;
  const chosen = document.getElementById("chosen");
  if (chosen) {
    const all = document.querySelectorAll(".card input:checked").length;
    chosen.textContent = all ? all + " chosen" : "";
  }
}

if (find) {
  const look = document.getElementById("look");
  look.hidden = isWhole;
  if (isWhole) {
    find.addEventListener("input", choose);
    find.addEventListener("keydown", (event) => { if (event.key === "Enter") event.preventDefault(); });
  }
  only.addEventListener("change", () => { if (isWhole) choose(); else find.form.requestSubmit(look); });
  document.addEventListener("change", (event) => { if (event.target.name === "sign") choose(); });
  document.addEventListener("keydown", (event) => {
    const isWriting = event.target.matches("input, textarea, select");
    if (event.key === "/" && !isWriting) { event.preventDefault(); find.focus(); }
    // Enter on the box of a sign composes for the chosen; it would look for signs, whose button is the form's first
    const send = find.form.querySelector("button.main");
    if (event.key === "Enter" && event.target.name === "sign" && send) {
      event.preventDefault();
      find.form.requestSubmit(send);
    }
  });
  const all = document.getElementById("all");
  if (all) {
    all.hidden = false;
    all.addEventListener("click", () => {
      const boxes = [...document.querySelectorAll(".card:not([hidden]) input[name=sign]")];
      const on = boxes.some((box) => !box.checked);
      for (const box of boxes) box.checked = on;
      choose();
    });
  }
  choose();
}

if (still) {
  still.hidden = !document.querySelector(".lamps");
  still.addEventListener("click", () => setStill(!isStill()));
  let kept = "";
  try { kept = localStorage.getItem("still"); } catch (fault) { /* a browser may keep nothing */ }
  if (kept) setStill(true);
}
label(document);
tellAges();
setInterval(tellAges, 1000);
if (body.dataset.view) listen(body.dataset.view);
// minutes that are written are meant, and none are left where they are not
for (const minutes of document.querySelectorAll(".asked-still input[name=minutes]")) {
  const [forever, ends] = minutes.form.querySelectorAll("input[name=lasts]");
  minutes.addEventListener("input", () => { ends.checked = true; });
  forever.addEventListener("change", () => { minutes.value = ""; });
}
