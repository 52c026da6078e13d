// Judges the page as it stands: labels, contrast, widths, structure. It gives a list of what is wrong, in words.
const [isNarrowOnly] = arguments;
const wrong = [];
const plain = (text) => text.replace(/\s+/g, " ").trim();
const isSeen = (it) => it.checkVisibility({visibilityProperty: true});
const seen = (selector) => [...document.querySelectorAll(selector)].filter(isSeen);
const tell = (it) => it.outerHTML.slice(0, 160);

// ---- labels and structure

for (const it of seen("input, select, textarea")) {
  if (![...(it.labels ?? [])].some((label) => isSeen(label) && plain(label.textContent))) wrong.push(`no label: ${tell(it)}`);
}
for (const it of seen("button, a, summary")) if (!plain(it.textContent)) wrong.push(`no name: ${tell(it)}`);
for (const it of seen("img")) if (!it.alt) wrong.push(`no text for a picture: ${tell(it)}`);
for (const it of seen("fieldset")) if (!plain(it.querySelector("legend")?.textContent ?? "")) wrong.push(`no legend: ${tell(it)}`);
for (const it of document.querySelectorAll("[aria-describedby]")) {
  for (const id of it.getAttribute("aria-describedby").split(" ")) if (!document.getElementById(id)) wrong.push(`describes nothing: ${id}`);
}
const ids = [...document.querySelectorAll("[id]")].map((it) => it.id);
for (const id of ids.filter((it, place) => ids.indexOf(it) !== place)) wrong.push(`an id twice: ${id}`);
if (seen("h1").length !== 1) wrong.push(`${seen("h1").length} headings of the first level`);
const levels = seen("h1, h2, h3").map((it) => Number(it.tagName[1]));
if (!document.documentElement.lang) wrong.push("no language");
if (!document.title) wrong.push("no title");
if (levels[0] !== 1) wrong.push(`the first heading is of level ${levels[0]}`);
if (seen("main").length !== 1) wrong.push("no main part");

// ---- contrast (WCAG 2.2, 1.4.3 and 1.4.11)

const channels = (colour) => (colour.match(/[\d.]+/g) ?? []).map(Number);
const over = (top, bottom) => {
  const alpha = top[3] ?? 1;
  return [0, 1, 2].map((at) => top[at] * alpha + bottom[at] * (1 - alpha));
};
const luminance = (colour) => {
  const [r, g, b] = colour.map((it) => it / 255).map((it) => (it <= 0.04045 ? it / 12.92 : ((it + 0.055) / 1.055) ** 2.4));
  return 0.2126 * r + 0.7152 * g + 0.0722 * b;
};
const contrast = (one, other) => {
  const [low, high] = [luminance(one), luminance(other)].sort((a, b) => a - b);
  return (high + 0.05) / (low + 0.05);
};
function backdrop(it) {
  const layers = [];
  for (let node = it; node; node = node.parentElement) layers.push(channels(getComputedStyle(node).backgroundColor));
  return layers.reverse().reduce((bottom, top) => over(top, bottom), [255, 255, 255]);
}
function opacityOf(it) {
  let opacity = 1;
  for (let node = it; node; node = node.parentElement) opacity *= Number(getComputedStyle(node).opacity);
  return opacity;
}
const walker = document.createTreeWalker(document.body, NodeFilter.SHOW_TEXT);
const texts = new Set();
while (walker.nextNode()) {
  const it = walker.currentNode.parentElement;
  if (plain(walker.currentNode.textContent) && isSeen(it) && !it.closest("noscript, script")) texts.add(it);
}
for (const it of [...texts, ...seen("input, textarea, select")]) {
  const style = getComputedStyle(it);
  const behind = backdrop(it);
  const colour = channels(style.color);
  const ink = over([...colour.slice(0, 3), (colour[3] ?? 1) * opacityOf(it)], behind);
  const size = parseFloat(style.fontSize);
  const isLarge = size >= 24 || (size >= 18.66 && Number(style.fontWeight) >= 700);
  const found = contrast(ink, behind);
  if (found < (isLarge ? 3 : 4.5)) wrong.push(`contrast ${found.toFixed(2)}: ${tell(it)}`);
}
for (const it of seen("input:not([type=radio], [type=checkbox]), textarea, select")) {
  const found = contrast(channels(getComputedStyle(it).borderTopColor).slice(0, 3), backdrop(it.parentElement));
  if (found < 3) wrong.push(`contrast ${found.toFixed(2)} of a border: ${tell(it)}`);
}

// ---- targets (WCAG 2.2, 2.5.8) and widths (1.4.10)

for (const it of seen("button, input, select, summary")) {
  const box = it.getBoundingClientRect();
  const label = it.labels?.[0]?.getBoundingClientRect() ?? box;
  if (Math.max(box.height, label.height) < 24) wrong.push(`a target of ${box.height.toFixed(0)} pixels: ${tell(it)}`);
}
for (const it of texts) {
  const box = it.getBoundingClientRect();
  if (plain(it.textContent).length > 20 && box.width < 80) wrong.push(`squeezed into ${box.width.toFixed(0)} pixels: ${tell(it)}`);
}
const root = document.documentElement;
if (root.scrollWidth > root.clientWidth) {
  const wide = seen("body *").filter((it) => it.getBoundingClientRect().right > root.clientWidth + 1);
  wrong.push(`wider than the window by ${root.scrollWidth - root.clientWidth}: ${wide.slice(-2).map(tell)}`);
}
return isNarrowOnly ? wrong.filter((it) => it.startsWith("wider")) : wrong;
