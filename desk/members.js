// Two versions member by member: each member in which they differ can be taken from either side.
import {bodyTyped} from "./client.js";
import {ABSENT, differing, valueAt, withValue} from "./difference.js";
import {isObject, plain, read, same, typable, write} from "./json.js";
import {el, named} from "./elements.js";
import {button} from "./page.js";

/** How many members are listed at once, and how much of a value. */
const MOST = 100, LONGEST = 120;

/** Returns a value in one line that isn't long. */
function inShort(value) {
  if (value === ABSENT) return el("em", {}, "no such member");
  const text = plain(write(value));
  return el("code", {}, text.length > LONGEST ? `${text.slice(0, LONGEST)} ..` : text);
}

/** Returns what a version did to a value, or "" where it left it as it was. */
function changeOf(before, value) {
  if (same(before, value)) return "";
  return before === ABSENT ? "added" : value === ABSENT ? "removed" : "changed";
}

/** Returns the body that is typed, or null where it is none yet. */
function bodyIn(area) {
  try {
    return read(area.value);
  } catch {
    return null;
  }
}

/** Marks the values that the merged body has. */
function mark({area, takers}) {
  const merged = bodyIn(area);
  takers.forEach(({path, value}, taker) => taker.setAttribute("aria-pressed", `${merged !== null && same(valueAt(merged, path), value)}`));
}

/** Returns a cell with a side's value at a path: a button that takes it into the merged body. */
function takerOf(table, path, {body, name}) {
  const value = valueAt(body, path), change = changeOf(valueAt(table.before, path), value), text = inShort(value);
  const label = `${path.join(".")}: take ${text.textContent} of ${name}${change && `, ${change}`}`;
  const take = () => {
    table.area.value = typable(withValue(bodyTyped(table.area.value), path, value));
    mark(table);
  };
  const made = button([text, change && el("span", {class: "word change"}, change)], take, {class: "take", "aria-label": plain(label)});
  table.takers.set(made, {path, value});
  return el("td", {}, made);
}

/** Returns the name of a member; where both sides have an object there, a button that lists its members, or removes them again. */
function nameOf(table, path) {
  const name = named(path.join("."));
  if (!table.sides.every(({body}) => isObject(valueAt(body, path)))) return name;
  const turn = event => {
    const made = event.currentTarget, line = made.closest("tr"), isOpen = made.getAttribute("aria-expanded") === "true";
    made.setAttribute("aria-expanded", `${!isOpen}`);
    if (isOpen) while (table.paths.get(line.nextSibling)?.length > path.length) line.nextSibling.remove();
    else line.after(...linesOf(table, path));
    mark(table);
  };
  return el("button", {type: "button", class: "open", "aria-expanded": "false", click: turn}, name);
}

/** Returns the line of one member. */
function lineOf(table, path) {
  const line = el("tr", {}, el("th", {scope: "row"}, nameOf(table, path)), ...table.sides.map(side => takerOf(table, path, side)));
  table.paths.set(line, path);
  return line;
}

/** Returns the lines of the members at a path in which the sides differ, from one on, and a way to more. */
function linesOf(table, path, from = 0) {
  const names = differing(...table.sides.map(({body}) => valueAt(body, path))), rest = names.length - from - MOST;
  const lines = names.slice(from, from + MOST).map(name => lineOf(table, [...path, name]));
  if (rest <= 0) return lines;
  const add = () => {
    more.replaceWith(...linesOf(table, path, from + MOST));
    mark(table);
  };
  const more = el("tr", {}, el("td", {colspan: 3}, button(`${rest.toLocaleString("en")} more members of ${path.join(".") || "the body"}`, add)));
  table.paths.set(more, [...path, ""]);
  return [...lines, more];
}

/**
 * Returns a table of the members in which two versions differ, as `{body, name}`, beside what each did to the body
 * `before`, and what marks it again. A press takes a value into the text of the area.
 */
export function memberTable(sides, before, area) {
  const table = {sides, before, area, takers: new Map(), paths: new Map()};
  const head = el("tr", {}, ...["member", ...sides.map(({name}) => name)].map(name => el("th", {scope: "col"}, name)));
  const made = el("table", {class: "members"}, el("thead", {}, head), el("tbody", {}, ...linesOf(table, [])));
  mark(table);
  return {made, mark: () => mark(table)};
}
