// JSON with exact numbers: whole numbers from -2^63 to 2^64-1 don't fit into a double.

/** Tells whether this browser keeps numbers exact; otherwise nothing may be edited. */
export const isExact = typeof JSON.rawJSON === "function";

/** Returns a number as a double if that is written the same, else as raw JSON. */
const kept = (_, value, at) => (typeof value === "number" && String(value) !== at.source ? JSON.rawJSON(at.source) : value);

/** Finds where a text may have a number that a double doesn't keep as it is written. */
const INEXACT = /(?:^|[[:,\s])-?(?:\d{16}|\d+[.eE]|0\d|(?<=-)0)/;

/** Reads a JSON text; throws a SyntaxError if it is not one. */
export const read = text => (INEXACT.test(text) ? JSON.parse(text, kept) : JSON.parse(text));

/** Writes a value that `read` returned, indented by so many spaces. */
export const write = (value, indent) => JSON.stringify(value, null, indent);

/** Tells whether a value is a JSON object. */
export const isObject = value => value !== null && typeof value === "object" && !Array.isArray(value) && !JSON.isRawJSON(value);

/** Tells whether two objects have the same members. */
function sameMembers(one, other) {
  const names = Object.keys(one);
  return names.length === Object.keys(other).length && names.every(name => Object.hasOwn(other, name) && same(one[name], other[name]));
}

/** Tells whether two values are equal, whatever the order of their members. */
export function same(one, other) {
  if (one === other) return true;
  if (Array.isArray(one)) return Array.isArray(other) && one.length === other.length && one.every((item, place) => same(item, other[place]));
  if (isObject(one)) return isObject(other) && sameMembers(one, other);
  return typeof one !== "symbol" && write(one) === write(other);
}

const HIDDEN = /[\u007f-\u009f\u061c\u200b\u200e\u200f\u2028-\u202e\u2066-\u2069\ufeff]/g;
const escaped = unit => "\\u" + unit.charCodeAt(0).toString(16).padStart(4, "0");

/** Returns the text of a value for display: characters that reorder or hide others are escaped, as JSON allows. */
export const shown = value => write(value, 2).replace(HIDDEN, escaped);

/** How many lines of a text browsers lay out in well under a second. */
export const MANY_LINES = 2000;

const countLines = text => text.split("\n").length;

/** Returns the text of a body for an editor: indented, or with a line for each member, or else in one line. */
export function typable(body) {
  const indented = shown(body), names = Object.keys(body);
  if (countLines(indented) <= MANY_LINES) return indented;
  const lines = names.map(name => `  ${write(name)}: ${write(body[name])}`);
  return (names.length <= MANY_LINES ? `{\n${lines.join(",\n")}\n}` : write(body)).replace(HIDDEN, escaped);
}

/** Returns a text for display in one line, escaped in the same way. */
export const plain = text => text.replace(HIDDEN, escaped).replace(/[\0-\x1f]/g, escaped);
