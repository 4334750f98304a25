// Elements of the page. What users wrote enters it only through `append`, which makes text nodes.
import {MANY_LINES, plain, shown} from "./json.js";
import {difference} from "./difference.js";

/** Gives an element its attributes and listeners, and its children. */
function fill(made, attributes, children) {
  for (const [name, value] of Object.entries(attributes)) {
    if (typeof value === "function") made.addEventListener(name, value);
    else if (value !== undefined) made.setAttribute(name, value);
  }
  made.append(...children.flat());
  return made;
}

export const el = (tag, attributes = {}, ...children) => fill(document.createElement(tag), attributes, children);
export const svg = (tag, attributes = {}, ...children) => fill(document.createElementNS("http://www.w3.org/2000/svg", tag), attributes, children);

/** Returns a name that a user chose, isolated so that it can't reorder the text around it. */
export const named = text => el("bdi", {}, plain(text));

/** Returns the address of a view: its words are a database, the view, and what it shows. */
export const placeOf = (...words) => "#/" + words.map(encodeURIComponent).join("/").replace(/\/+$/, "");

export const link = (text, ...words) => el("a", {href: placeOf(...words)}, named(text));
export const shortRev = rev => rev.replace(/-(.{6}).+/, "-$1");
export const revsOf = leaves => leaves.map(leaf => shortRev(leaf.rev ?? leaf._rev)).slice(0, 5).join(" ");
export const megabytes = bytes => `${(bytes / 1e6).toFixed(1)} MB`;

/** Returns an element with what `make` makes of the first things; presses add more of them, which are called by a name. */
export function inParts(made, things, name, make = thing => thing) {
  const more = el("button", {type: "button", click: () => add()}), holder = el("div", {class: "parts"}, made);
  let shown = 0;
  const add = () => {
    made.append(...things.slice(shown, shown + MANY_LINES).map(make));
    shown += MANY_LINES;
    more.textContent = `More of ${things.length.toLocaleString("en")} ${name}`;
    if (shown >= things.length) more.remove();
  };
  if (things.length > MANY_LINES) holder.append(more);
  add();
  return holder;
}

/** How much of a line is shown as one piece. */
const LONGEST_LINE = 10000;

/** Returns the lines of a text, and of a long line pieces. */
const linesOf = text => text.split(/(?<=\n)/).flatMap(line => line.match(new RegExp(`.{1,${LONGEST_LINE}}\n?|\n`, "gu")) ?? []);

/** Returns the text of a value; of a long one the first lines, and a way to more. */
export const code = (value, name = "body") => inParts(el("pre", {class: name}), linesOf(shown(value)), "lines");

/** Returns the words of the address: a database, the view, and what it shows. */
export const wordsHere = () => location.hash.replace(/^#\/?/, "").split("/").filter(Boolean).map(decodeURIComponent);

/** Returns a field with its label around it. */
export const field = (label, attributes) => el("label", {}, `${label} `, el("input", {autocomplete: "off", spellcheck: "false", ...attributes}));

/** Returns an editor of a JSON text. What is typed counts as not saved where it differs from the saved text. */
export function typing(label, text, saved = text) {
  const rows = Math.min(Math.max(text.split("\n").length + 1, 6), 24), area = el("textarea", {"aria-label": label, spellcheck: "false", rows});
  area.defaultValue = saved;
  if (text !== saved) area.value = text;
  return area;
}

const KINDS = {" ": "kept", "-": "taken", "+": "added"}, AROUND = 4;

/** Returns lines with their signs, and in place of many that are kept those beside the others, and how many are left out. */
function folded(lines) {
  const isNear = lines.map(() => false);
  lines.forEach(([sign], place) => sign !== " " && isNear.fill(true, Math.max(place - AROUND, 0), place + AROUND + 1));
  const rows = [];
  for (let place = 0; place < lines.length; ) {
    let end = place;
    while (end < lines.length && !isNear[end]) end++;
    if (end - place > 1) rows.push([".", `${(end - place).toLocaleString("en")} lines are the same`]);
    else rows.push(lines[place]);
    place = Math.max(end, place + 1);
  }
  return rows;
}

const cut = line => (line.length > LONGEST_LINE ? `${line.slice(0, LONGEST_LINE)} .. ${line.length.toLocaleString("en")} characters` : line);

/** Returns the lines of two bodies, with the differing ones marked, and what is around them. */
export function compared(before, after) {
  const made = ([sign, line]) => el("span", {class: KINDS[sign] ?? "folded"}, `${sign} ${cut(line)}\n`);
  return inParts(el("pre", {class: "difference"}), folded(difference(shown(before), shown(after))), "lines", made);
}

const headOf = names => el("thead", {}, el("tr", {}, ...names.map(name => el("th", {scope: "col"}, name))));
export const table = (name, heads, rows) => el("table", {class: name}, headOf(heads), el("tbody", {}, ...rows));
export const row = (...cells) => el("tr", {}, ...cells.map(cell => el("td", {}, cell)));
export const heading = (...children) => el("h2", {tabindex: "-1"}, ...children);
export const pages = (...links) => el("nav", {class: "pages", "aria-label": "pages"}, ...links.filter(Boolean));
export const actions = (...children) => el("p", {class: "actions"}, ...children);
