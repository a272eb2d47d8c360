"use strict";
// Shows what the sign's front end says as it changes, and presses buttons. Nothing is written as markup: all words are text.

const at = (id) => document.getElementById(id);
const token = document.querySelector("meta[name=token]").content;
const known = document.querySelector("meta[name=run]").content;

function made(name, words, style) {
  const one = document.createElement(name);
  one.textContent = words;
  if (style) one.className = style;
  return one;
}

function facts(id, list) {
  at(id).replaceChildren(...list.flatMap(([name, value]) => [made("dt", name), made("dd", value)]));
}

function clock(seconds) {
  return new Date(1000 * seconds).toTimeString().slice(0, 8);
}

// a datagram in words: its kind, who sent it, how it ended, and each object with its value
function words(fields) {
  if (fields.fault) return `no message: ${fields.fault} at octet ${fields.offset}`;
  const error = fields["error-status"], is_wrong = error && error !== "noError";
  const head = [fields.kind, fields["request-id"], ...(error ? [] : [`by the ${fields.community}`])];
  if (is_wrong) head.push(`${error} at ${fields["error-index"]}`);
  const bound = fields.bindings.map((one) => (one.value === "" ? one.name : `${one.name} = ${one.value}`));
  return `${head.join(" ")}: ${bound.join(", ") || "no objects"}`;
}

function exchange(one) {
  const line = made("li", "");
  line.append(made("p", `${clock(one.time)} ${one.peer} ${words(one.request)}`));
  if (one.reply) {
    const is_wrong = one.reply["error-status"] && one.reply["error-status"] !== "noError";
    line.append(made("p", words(one.reply), is_wrong ? "reply error" : "reply"));
  }
  if (one.fate) line.append(made("p", one.fate, "fate"));
  return line;
}

const show = {
  lamps(part) {
    at("lamps").src = `/lamps.svg?${part.number}`;
    at("by").hidden = part.by === "program";
  },
  shown(part) {
    at("text").textContent = part.text || "(no text)";
    at("power").textContent = part.powered ? "power on" : "power off";
    at("power").className = part.powered ? "tag" : "tag off";
    facts("facts", part.facts);
    facts("reports", part.reports);
  },
  table(part) {
    at("table").replaceChildren(...part.rows.map((row) => {
      const line = made("tr", "");
      line.append(...row.map((cell) => made("td", cell)));
      return line;
    }));
    at("unused").textContent = part.unused ? `Not used: ${part.unused}.` : "";
    const since = part.readAt === null ? "Not read yet" : `Read at ${clock(part.readAt)}`;
    at("read").textContent = part.older ? `${since}: a Get now would end the sign's silence, or is not answered.` : "";
  },
  datagrams(part) {
    at("datagrams").replaceChildren(...part.map(exchange));
  },
};

function follow() {
  const source = new EventSource("/events");
  source.onmessage = (event) => {
    const { run = known, ...parts } = JSON.parse(event.data);
    if (run !== known) {
      source.close();
      location.reload();  // another run of the sign has another token
      return;
    }
    at("follows").textContent = "The page follows what happens.";
    at("follows").className = "";
    for (const [name, part] of Object.entries(parts)) show[name](part);
  };
  source.onerror = () => {
    at("follows").textContent = "The page has lost the sign, and tries again.";
    at("follows").className = "lost";
    if (source.readyState === EventSource.CLOSED) setTimeout(follow, 3000);
  };
}

async function press(button) {
  const fields = new URLSearchParams(), of = button.dataset.amount;
  if (of) fields.set("amount", at(of).value);
  try {
    const answer = await fetch(`/${button.dataset.press}`, { method: "POST", body: fields, headers: { "X-Token": token } });
    at("done").textContent = answer.ok ? `Done: ${button.textContent.toLowerCase()}.` : `Not done: ${await answer.text()}`;
  } catch {
    at("done").textContent = "Not done: the sign is not there.";
  }
}

for (const button of document.querySelectorAll("button[data-press]")) button.addEventListener("click", () => press(button));
follow();
