// Differences of texts, and three-way merges of bodies, without the page.
import {isObject, same} from "./json.js";

const MANY = 1e6;

/** Returns the length of the common head of two lists. */
function alike(one, other) {
  let count = 0;
  while (count < one.length && count < other.length && one[count] === other[count]) count++;
  return count;
}

/** Returns the lengths of longest common subsequences, for each pair of suffixes. */
function commonLengths(one, other) {
  const rows = Array.from({length: one.length + 1}, () => new Uint32Array(other.length + 1));
  for (let i = one.length - 1; i >= 0; i--)
    for (let j = other.length - 1; j >= 0; j--)
      rows[i][j] = one[i] === other[j] ? rows[i + 1][j + 1] + 1 : Math.max(rows[i + 1][j], rows[i][j + 1]);
  return rows;
}

/** Returns the lines of both lists along a longest common subsequence; of long lists all of one, then all of the other. */
function walk(one, other) {
  if (one.length * other.length > MANY) return [...one.map(line => ["-", line]), ...other.map(line => ["+", line])];
  const lengths = commonLengths(one, other), lines = [];
  for (let i = 0, j = 0; i < one.length || j < other.length; ) {
    if (i < one.length && j < other.length && one[i] === other[j]) lines.push([" ", one[i++]], ...(j++, []));
    else if (i < one.length && (j === other.length || lengths[i + 1][j] >= lengths[i][j + 1])) lines.push(["-", one[i++]]);
    else lines.push(["+", other[j++]]);
  }
  return lines;
}

/** Returns the lines of both texts, each with " " (in both), "-" (in the first) or "+" (in the second). */
export function difference(before, after) {
  const one = before.split("\n"), other = after.split("\n"), head = alike(one, other);
  const rest = [one.slice(head), other.slice(head)], tail = alike(...rest.map(lines => lines.toReversed()));
  const kept = lines => lines.map(line => [" ", line]), middles = rest.map(lines => lines.slice(0, lines.length - tail));
  return [...kept(one.slice(0, head)), ...walk(...middles), ...kept(one.slice(one.length - tail))];
}

/** Stand for a missing member, and for an unknown ancestor. */
export const ABSENT = Symbol("absent"), UNKNOWN = Symbol("unknown");

const member = (value, name) => (value === UNKNOWN ? UNKNOWN : isObject(value) && Object.hasOwn(value, name) ? value[name] : ABSENT);

/** Returns the value at a path of members, or ABSENT. */
export const valueAt = (body, path) => path.reduce(member, body);

/** Returns a body whose value at a path is another one, or isn't there where that is ABSENT. */
export function withValue(body, [name, ...path], value) {
  const before = member(body, name), inner = path.length ? withValue(isObject(before) ? before : {}, path, value) : value;
  const others = Object.entries(body).filter(([other]) => other !== name);
  return Object.fromEntries(inner === ABSENT ? others : [...others, [name, inner]].sort(([one], [other]) => (one < other ? -1 : 1)));
}

/** Returns the names of the members in which two objects differ. */
export const differing = (one, other) =>
  [...new Set([...Object.keys(one), ...Object.keys(other)])].sort().filter(name => !same(member(one, name), member(other, name)));

/** Returns the values without repeats. */
const distinct = values => values.filter((value, place) => values.findIndex(other => same(other, value)) === place);

/** Merges one value of all sides; where they conflict, the first side's is used and the path is noted. */
function mergeValues(base, sides, path, touching) {
  const changed = distinct(base === UNKNOWN ? sides : sides.filter(side => !same(side, base)));
  if (changed.length <= 1) return changed.length ? changed[0] : base;
  if ([...changed, base].every(value => value === UNKNOWN || isObject(value))) return mergeMembers(base, sides, path, touching);
  touching.push(path);
  return sides[0];
}

/** Merges the members of objects, each by itself. */
function mergeMembers(base, sides, path, touching) {
  const names = [...new Set([...sides, base].flatMap(value => (isObject(value) ? Object.keys(value) : [])))].sort();
  const merged = names.map(name => {
    const values = sides.map(side => member(side, name));
    return [name, mergeValues(member(base, name), values, [...path, name], touching)];
  });
  return Object.fromEntries(merged.filter(([, value]) => value !== ABSENT));
}

/**
 * Merges the changes of several bodies to their ancestor, by members. Returns the body, and the paths of members that
 * were changed in different ways. Without the ancestor (UNKNOWN) each difference counts as such.
 */
export function merge(base, sides) {
  const touching = [];
  return {body: mergeMembers(base, sides, [], touching), touching};
}
