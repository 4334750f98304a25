// Settling: what each version changed, one merged body, and then the others deleted.
import {Refused, TooLong, askLeaves, askUnless, bodyOf, bodyTyped, isAbsent, orTooLong, pathTo, put, query, underWay} from "./client.js";
import {same, typable} from "./json.js";
import {commonAncestor, kindsOf} from "./tree.js";
import {UNKNOWN, merge} from "./difference.js";
import {actions, code, compared, el, heading, inParts, link, named, pages, shortRev, typing} from "./elements.js";
import {markSettled, placeAmong} from "./conflicts.js";
import {memberTable} from "./members.js";
import {button, failure} from "./page.js";

const living = leaves => leaves.filter(leaf => !leaf._deleted);

/** Returns the leaves with their paths, or without them where these are too long. */
async function askPaths(page, db, id) {
  const leaves = await orTooLong(askLeaves(db, id, true, page));
  return leaves instanceof TooLong ? askLeaves(db, id, false, page) : leaves;
}

/** Returns the common ancestor, or null where there is none, its body is not held, or no paths are there. */
async function ancestorOf(page, db, id, live) {
  const rev = live.every(leaf => leaf._revisions) ? commonAncestor(live) : null;
  return rev && askUnless(isAbsent, pathTo(db, id) + query({rev}), page);
}

const UNHELD = "No body of a common ancestor is available. Where the versions differ, the winner's value is used:";
const TOUCHING = "All other changes are included. These members were changed in different ways; the winner's value is used:";
const APART = "The changes don't overlap: all are included.";

/** Returns how the proposal was made, and the members to check. */
const proposal = (base, touching) => [
  el("p", {class: "proposal"}, base ? (touching.length ? TOUCHING : APART) : UNHELD),
  inParts(el("ul", {class: "touching"}), touching, "members", path => el("li", {}, named(path.join(".")))),
];

// ---- what a press of 'Settle' does

/** Throws where a revision is no longer a leaf, or is deleted: then nothing else may be deleted. */
async function expectAlive(page, db, id, rev) {
  const leaves = living(await askLeaves(db, id, false, {...page, limit: Infinity}));
  if (!leaves.some(leaf => leaf._rev === rev)) throw new Error(`${shortRev(rev)} was changed meanwhile. Nothing more was deleted; look again.`);
}

/** Deletes a losing version. It keeps its body, since update rules may compare members. Returns null, or the refusal. */
async function deleteLoser(page, db, id, kept, loser) {
  await expectAlive(page, db, id, kept);
  const refused = error => (error instanceof Refused ? error : Promise.reject(error));
  return put(db, id, loser._rev, bodyOf(loser), {...page, isDeleted: true}).then(() => null, refused);
}

/** Deletes the losing versions one after the other, and returns what happened, and whether all are deleted. */
async function deleteLosers(page, db, id, kept, losers) {
  const said = [];
  let isDone = true;
  try {
    for (const loser of losers) {
      const refusal = await deleteLoser(page, db, id, kept, loser);
      said.push(el("p", {}, `${shortRev(loser._rev)} ${refusal ? "was not deleted:" : "is deleted."}`), ...(refusal ? failure(refusal) : []));
      isDone &&= !refusal;
    }
  } catch (error) {
    return {isDone: false, said: [...said, ...failure(error)]};
  }
  return {isDone, said};
}

/** Returns the way to the next document of the list, by a press or by the key Enter, and the way to the list. */
function goingOn(db, id) {
  const {next, of} = placeAmong(db, id), list = link("the list", db);
  if (!next) return actions(of ? "All that were found are settled: " : "Others are in ", list);
  const text = ["Next: ", named(next.id), `, ${next.number} of ${of}`];
  return actions(button(text, page => page.go(db, "settle", next.id), {class: "main next", accesskey: "n"}), " or ", list);
}

/**
 * Saves the merged body alone, unless the version that is kept has it already, and then deletes the others. A single
 * bulk would delete them even if the merge is refused: each document of a bulk is judged by itself.
 */
async function settled(page, db, id, parent, losers, body) {
  const written = parent._deleted || !same(body, bodyOf(parent)), kept = written ? await put(db, id, parent._rev, body, page) : parent._rev;
  const {isDone, said} = await underWay(() => deleteLosers(page, db, id, kept, losers));
  if (isDone) markSettled(db, id);
  const begun = el("p", {}, `${shortRev(kept)} is ${written ? "written" : "kept as it was"}.`);
  const again = isDone ? [] : [actions(button("Look at it again", page => page.again()))];
  page.show(heading(isDone ? "Settled: " : "Not settled: ", link(id, db, "document", id)), begun, ...said, ...again, goingOn(db, id));
  if (isDone && page.isHere()) document.querySelector("button.next")?.focus();
}

// ---- the versions

/** Returns one version with what it changed to a body, if there is one, and a button to take it unchanged. */
function side(leaf, body, kind, before, take) {
  const name = shortRev(leaf._rev), title = el("h3", {}, `${name} `, el("span", {class: `word ${kind}`}, kind));
  const what = before ? compared(before, body) : code(body);
  return el("section", {class: "side", "aria-label": `${leaf._rev} ${kind}`}, title, what, button(`Take ${name}`, () => take(leaf)));
}

/** Returns fields that choose which two of several versions are compared: never one with itself. */
function choosing(names, pair, draw) {
  const choose = which => event => {
    const chosen = event.target.selectedIndex;
    if (chosen === pair[1 - which]) pair.reverse();
    else pair[which] = chosen;
    fields.forEach((field, at) => Object.assign(field, {selectedIndex: pair[at]}));
    draw();
  };
  const optionOf = at => (name, place) => el("option", place === pair[at] ? {selected: ""} : {}, name);
  const fields = [0, 1].map(at => el("select", {change: choose(at)}, ...names.map(optionOf(at))));
  return el("p", {class: "choice"}, ...fields.map((field, at) => el("label", {}, at ? "with " : `Of ${names.length} versions compare `, field)));
}

/** Returns two of the versions, side by side and then member by member, marked against the ancestor or else the winner. */
function comparing({live, bodies, kindOf, base}, area, take) {
  const place = el("div"), pair = [0, 1], nameOf = leaf => `${shortRev(leaf._rev)} ${kindOf(leaf)}`;
  const against = base ? bodyOf(base) : bodies.get(live[0]);
  const marked = base ? `the common ancestor ${shortRev(base._rev)}` : `the winner ${shortRev(live[0]._rev)}`;
  let mark = () => {};
  const draw = () => {
    const two = pair.map(at => live[at]).filter(Boolean), beforeOf = leaf => (base || leaf !== live[0] ? against : null);
    const sides = el("div", {class: "sides"}, ...two.map(leaf => side(leaf, bodies.get(leaf), kindOf(leaf), beforeOf(leaf), take)));
    const members = two.length > 1 ? memberTable(two.map(leaf => ({body: bodies.get(leaf), name: nameOf(leaf)})), against, area) : null;
    mark = members?.mark ?? mark;
    const how = el("p", {class: "proposal"}, `A press takes a value into the merged body. Marked are changes to ${marked}.`);
    place.replaceChildren(sides, ...(members ? [el("h3", {}, "Member by member"), how, el("div", {class: "wide"}, members.made)] : []));
  };
  draw();
  area.addEventListener("input", () => mark());
  return {parts: [live.length > 2 ? choosing(live.map(nameOf), pair, draw) : "", place], mark: () => mark()};
}

/** Returns the elements for settling: the versions, and a body to edit, which is saved after one of them. */
function settling(db, id, versions, {text, saved}, notes) {
  const {live, bodies} = versions, area = typing("merged body", text, saved), behind = el("p", {role: "status"});
  const others = live.length > 2 ? `the other ${live.length - 1} versions` : "the other version";
  let parent = live[0];
  const say = () => behind.replaceChildren(`Settling saves this after ${shortRev(parent._rev)}, and then deletes ${others}.`);
  const take = leaf => {
    [parent, area.value] = [leaf, typable(bodies.get(leaf))];
    say();
    mark();
  };
  const {parts, mark} = comparing(versions, area, take);
  const press = async page => {
    try {
      await settled(page, db, id, parent, live.filter(leaf => leaf !== parent), bodyTyped(area.value));
    } catch (error) {
      if (error.status !== 409) throw error;
      await settle({...page, limit: Infinity}, db, id, area.value);
      page.tell(...failure(error), el("p", {}, "Nothing was written. The versions below are the current ones; what you typed is kept."));
    }
  };
  say();
  return [...parts, el("h3", {}, "The merged body"), ...notes, area, behind, actions(button("Settle", press, {class: "main", accesskey: "s"}))];
}

/** Returns where the document is in the list, with links to those beside it. */
function beside(db, id) {
  const {number, of, previous, next} = placeAmong(db, id), way = (text, to) => to && link(text, db, "settle", to.id);
  return number ? pages(el("span", {}, `${number} of ${of}`), way("previous conflict", previous), way("next conflict", next)) : "";
}

/** Shows the versions of a document side by side, and a merged body, or what was typed before. */
export async function settle(page, db, id, typed) {
  const leaves = await askPaths(page, db, id), found = living(leaves), kinds = kindsOf(leaves);
  if (found.length < 2 && typed === undefined) {
    markSettled(db, id);
    return page.show(heading("Nothing to settle"), el("p", {}, link(id, db, "document", id), ` has ${found.length} version(s).`), goingOn(db, id));
  }
  const live = found.length ? found : leaves.slice(0, 1), bodies = new Map(live.map(leaf => [leaf, bodyOf(leaf)]));
  const kindOf = leaf => kinds[leaves.indexOf(leaf)];
  const base = await ancestorOf(page, db, id, found), {body, touching} = merge(base ? bodyOf(base) : UNKNOWN, [...bodies.values()]);
  const ancestor = base ? el("details", {}, el("summary", {}, `their common ancestor ${shortRev(base._rev)}`), code(bodyOf(base))) : "";
  const kept = [el("p", {class: "proposal"}, "This is what you typed before. Changes made since then are not in it.")];
  const notes = typed === undefined ? proposal(base, touching) : kept, saved = typable(body), texts = {text: typed ?? saved, saved};
  page.show(heading("Settle ", named(id)), beside(db, id), ancestor, ...settling(db, id, {live, bodies, kindOf, base}, texts, notes));
}
