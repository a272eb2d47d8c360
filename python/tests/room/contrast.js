// Each pair of colours that a text of the page has, ink and ground as the browser computed them, with its size.
"use strict";

function parts(words) {
  const found = words.match(/^rgba?\((\d+), (\d+), (\d+)(?:, ([\d.]+))?\)$/);
  if (!found) throw new Error("a colour that is not spelled by its parts: " + words);
  return [1, 2, 3].map((at) => Number(found[at])).concat(found[4] === undefined ? 1 : Number(found[4]));
}

function over(top, under) {
  return [0, 1, 2].map((at) => top[at] * top[3] + under[at] * (1 - top[3])).concat(1);
}

function ground(of) {
  let found = [255, 255, 255, 1];
  const layers = [];
  for (let at = of; at; at = at.parentElement) layers.unshift(getComputedStyle(at));
  for (const style of layers) {
    if (style.backgroundImage !== "none" || style.opacity !== "1" || style.filter !== "none") {
      throw new Error("what a text stands on is no plain colour: " + of.outerHTML);
    }
    found = over(parts(style.backgroundColor), found);
  }
  return found;
}

const seen = {};

function note(words, of, style) {
  const under = ground(of);
  const pair = [over(parts(style.color), under), under].map((one) => one.slice(0, 3).map(Math.round));
  const key = JSON.stringify([...pair, parseFloat(style.fontSize), Number(style.fontWeight)]);
  seen[key] = seen[key] || words.slice(0, 40) + " in " + (of.className || of.localName);
}

for (const one of document.querySelectorAll("details")) one.open = true;
const walker = document.createTreeWalker(document.body, NodeFilter.SHOW_TEXT);
while (walker.nextNode()) {
  const of = walker.currentNode.parentElement, words = walker.currentNode.data.trim();
  if (words && of.checkVisibility({checkVisibilityCSS: true}) && !of.closest(".hidden, select")) {
    note(words, of, getComputedStyle(of));
  }
}
for (const one of document.querySelectorAll("input:not([type=hidden], [type=checkbox], [type=radio]), select, textarea")) {
  note(one.value || one.name, one, getComputedStyle(one));
  if (one.placeholder) note(one.placeholder, one, getComputedStyle(one, "::placeholder"));
}
return Object.entries(seen);
