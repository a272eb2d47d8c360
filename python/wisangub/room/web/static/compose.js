// The picture of a text as it is written, and its fault at its place.
"use strict";

const form = document.getElementById("compose");
const text = document.getElementById("text");
const looks = document.getElementById("looks");
const token = document.querySelector("meta[name=token]").content;
let waiting = 0;
let asked = 0;

function chosen() {
  return [...form.querySelectorAll("input[name=sign]:checked")];
}

function put(kind, words, of) {
  const made = document.createElement(kind);
  if (of) made.className = of;
  made.textContent = words;
  return made;
}

function pictured(look) {
  const lamps = put("div", "", "lamps");
  const image = document.createElement("img");
  image.alt = look.alt;
  image.src = isStill() ? look.src + "?page=1" : look.src;
  lamps.append(image);
  return [lamps];
}

function faulted(look) {
  const place = look.offset === null ? "" : "At character " + (look.offset + 1) + ": ";
  const made = [put("p", place + look.why + ".", "alert")];
  if (look.offset !== null) {
    const line = put("p", "", "marked");
    const code = document.createElement("code");
    code.append(look.marked[0], put("mark", look.marked[1] || "⟨end⟩"), look.marked[2]);
    line.append(code);
    const go = put("button", "Go there", "quiet");
    go.type = "button";
    go.addEventListener("click", () => {
      text.focus();
      text.setSelectionRange(look.offset, look.offset + look.marked[1].length);
    });
    made.push(line, go);
  }
  return made;
}

function show(answer) {
  const made = answer.looks.map((look) => {
    const box = put("div", "", "look");
    box.dataset.face = look.face;
    box.append(put("p", look.names.join(", ") + " (" + look.width + " by " + look.height + ")", "facts"));
    box.append(...(look.src ? pictured(look) : faulted(look)));
    return box;
  });
  looks.replaceChildren(...made);
  text.setAttribute("aria-invalid", String(answer.looks.some((look) => !look.src)));
  document.getElementById("check").disabled = false;
}

async function look() {
  const number = ++asked;
  document.getElementById("count").textContent = text.value.length + " of 512 octets.";
  const signs = chosen().map((box) => Number(box.value));
  if (!signs.length || !text.value) {
    looks.replaceChildren(put("p", signs.length ? "The picture comes as you write." : "Choose a sign.", "facts"));
    return;
  }
  try {
    const answer = await fetch("/look", {
      method: "POST", headers: {"X-Token": token, "Content-Type": "application/json"},
      body: JSON.stringify({signs: signs, text: text.value}),
    });
    const held = await answer.json();
    if (number !== asked) return;
    if (answer.ok) show(held); else looks.replaceChildren(put("p", held.error, "alert"));
  } catch (fault) {
    if (number === asked) looks.replaceChildren(put("p", "The service does not answer.", "alert"));
  }
}

function soon() {
  clearTimeout(waiting);
  waiting = setTimeout(look, 150);
}

function written() {
  const at = text.selectionStart;
  if (text.value.includes("\n")) {
    const before = text.value.slice(0, at).replaceAll("\n", "[nl]");
    text.value = text.value.replaceAll("\n", "[nl]");
    text.setSelectionRange(before.length, before.length);
  }
  soon();
}

function insert(button) {
  const from = text.selectionStart, to = text.selectionEnd, after = button.dataset.after || "";
  const within = text.value.slice(from, to);
  text.setRangeText(button.dataset.put + within + after, from, to, "end");
  const at = from + button.dataset.put.length + within.length + (within ? after.length : 0);
  text.focus();
  text.setSelectionRange(at, at);
  soon();
}

text.addEventListener("input", written);
text.addEventListener("keydown", (event) => {
  if (event.key === "Enter" && (event.ctrlKey || event.metaKey)) form.requestSubmit(document.getElementById("check"));
});
form.addEventListener("change", (event) => {
  if (event.target.name === "sign") {
    document.getElementById("names").textContent = chosen().map((box) => box.parentElement.textContent.trim()).join(", ") || "Choose signs";
    soon();
  }
});
const use = document.getElementById("use"); // asks for a text of the library, for the signs that are chosen now
use.addEventListener("submit", () => {
  use.replaceChildren(...chosen().map((box) => {
    const made = put("input", "");
    made.type = "hidden"; made.name = "sign"; made.value = box.value;
    return made;
  }));
});
const purpose = document.getElementById("purpose");
const byHand = ["memory", "number", "run", "priority"].map((name) => document.getElementById(name));
purpose.addEventListener("change", () => {
  const of = purpose.selectedOptions[0].dataset;
  if (of.priority) ["3", of.number, of.priority, of.priority].forEach((value, at) => { byHand[at].value = value; });
});
for (const field of byHand) field.addEventListener("input", () => { purpose.value = ""; });
document.getElementById("minutes").addEventListener("input", () => { document.getElementById("lasts").checked = true; });
document.getElementById("tools").hidden = false;
const narrow = document.getElementById("narrow"); // among many signs: those that are chosen stay to be seen
const choice = [...document.querySelectorAll("#choice li")];
function narrowed() {
  const words = narrow.value.trim().toLowerCase();
  let count = 0;
  for (const one of choice) {
    const isLike = one.dataset.words.toLowerCase().includes(words);
    one.hidden = !isLike && !one.querySelector("input").checked;
    count += isLike;
  }
  document.getElementById("found").textContent = words ? count + " of " + choice.length + " signs" : "";
}
document.getElementById("narrowing").hidden = choice.length < 12;
narrow.addEventListener("input", narrowed);
narrow.addEventListener("keydown", (event) => { if (event.key === "Enter") event.preventDefault(); });
for (const button of document.querySelectorAll("[data-put]")) button.addEventListener("click", () => insert(button));
for (const button of document.querySelectorAll("[data-text]")) {
  button.addEventListener("click", () => { text.value = button.dataset.text; text.focus(); soon(); });
}
look();
