// One document: its tree, the body of each revision, and its editor.
import {Refused, TooLong, askHeld, askLeaves, askUnless, bodyOf, bodyTyped, isAbsent, orTooLong, pathTo, put, query} from "./client.js";
import {typable} from "./json.js";
import {kindsOf, pathOf, rowsOf} from "./tree.js";
import {actions, code, compared, el, field, heading, link, megabytes, named, placeOf, shortRev, svg, typing} from "./elements.js";
import {button, form, markSaved, pressed} from "./page.js";

const SHAPES = {
  winner: (x, y) => svg("circle", {cx: x, cy: y, r: 8}),
  conflict: (x, y) => svg("path", {d: `M${x} ${y - 9}l9 9l-9 9l-9 -9z`}),
  deleted: (x, y) => svg("path", {d: `M${x - 7} ${y - 7}h14v14h-14zm0 0l14 14m0 -14l-14 14`}),
  inner: (x, y) => svg("circle", {cx: x, cy: y, r: 5}),
  gone: (x, y) => svg("circle", {cx: x, cy: y, r: 5}),
  run: (x, y) => svg("path", {d: `M${x} ${y - 7}h0m0 7h0m0 7h0`}),
};
const WORDS = {winner: "winner", conflict: "conflict", deleted: "deleted", inner: "held", gone: "not held"};
const HEIGHT = 28, LANE = 26, LEFT = 16;

/** Returns the kind of a drawn revision, given which bodies are held. */
function kindOf({kind, rev}, held) {
  if (kind !== "inner") return kind;
  return held.get(rev) === null ? "gone" : held.get(rev)._deleted ? "deleted" : "inner";
}

/** Draws one row: a shape, and beside it the revision and the word for its kind. */
function drawnRow(row, place, held, chosen, target) {
  const x = LEFT + row.lane * LANE, y = (place + 0.5) * HEIGHT, kind = kindOf(row, held), shape = SHAPES[kind](x, y);
  const word = kind === "run" ? `${row.hidden.toLocaleString("en")} more` : `${shortRev(row.rev)} ${WORDS[kind]}`;
  const label = kind === "run" ? `${word} revisions: show them` : `${row.rev} ${WORDS[kind]}`;
  shape.setAttribute("class", `node ${kind}`);
  const attributes = {class: row.rev === chosen && kind !== "run" ? "chosen" : undefined, "aria-label": label, ...target(row)};
  return svg("a", attributes, shape, svg("text", {x: x + 18, y: y + 4}, word));
}

/** Draws the line from a row's parent: down, and then across to its lane. */
function drawnLine(rows, row, place) {
  const above = rows[row.above], from = LEFT + above.lane * LANE, to = LEFT + row.lane * LANE;
  const broken = row.kind === "run" || above.kind === "run" ? "line broken" : "line";
  return svg("path", {class: broken, d: `M${from} ${(row.above + 0.5) * HEIGHT}V${(place + 0.5) * HEIGHT}H${to}`});
}

/** Draws the tree of a document. */
function drawn(rows, held, chosen, target) {
  const lanes = Math.max(...rows.map(row => row.lane)), width = LEFT + lanes * LANE + 210, height = rows.length * HEIGHT;
  const lines = rows.flatMap((row, place) => (row.above === null ? [] : [drawnLine(rows, row, place)]));
  const nodes = rows.map((row, place) => drawnRow(row, place, held, chosen, target));
  return svg("svg", {class: "tree", width, height, role: "group", "aria-label": "tree of revisions"}, ...lines, ...nodes);
}

/** Returns the element of the tree, which is redrawn when a run is unfolded. */
async function treeOf(page, db, id, leaves, chosen) {
  const place = el("div", {class: "wide", tabindex: "0", role: "region", "aria-label": "tree"}), unfolded = new Set();
  const unfold = rev => pressed(async page => {
    unfolded.add(rev);
    await draw(page);
    place.focus();
  });
  const target = ({kind, rev}) => (kind === "run" ? {href: location.hash, click: unfold(rev)} : {href: placeOf(db, "document", id, rev)});
  const draw = async page => {
    const rows = rowsOf(leaves, unfolded), inner = rows.filter(row => row.kind === "inner").map(row => row.rev);
    const held = inner.length ? await askHeld(db, id, inner, page) : new Map();
    place.replaceChildren(drawn(rows, held, chosen, target));
  };
  await draw(page);
  return place;
}

/** Returns the tree, or a button to fetch it where its paths are too long. */
async function treeOrOffer(page, db, id, chosen) {
  const leaves = await orTooLong(askLeaves(db, id, true, page));
  if (!(leaves instanceof TooLong)) return treeOf(page, db, id, leaves, chosen);
  const fetched = async (page, made) => made.parentElement.replaceWith(await treeOrOffer({...page, limit: Infinity}, db, id, chosen));
  return el("p", {}, `The paths of the tree are ${megabytes(leaves.bytes)} long. `, button("Fetch and draw it", fetched));
}

/** Returns the elements for editing and deleting a leaf. */
function writing(db, id, leaf) {
  const deleted = async page => page.go(db, "document", id, await put(db, id, leaf._rev, bodyOf(leaf), {...page, isDeleted: true}));
  const remove = button(`Delete ${shortRev(leaf._rev)}`, deleted);
  const removing = el("details", {}, el("summary", {}, "Delete"), el("p", {}, "Its body can still be read by its revision."), remove);
  const change = el("a", {href: placeOf(db, "edit", id, leaf._rev)}, leaf._deleted ? "Write it again" : "Edit");
  return [actions(change), leaf._deleted ? "" : removing];
}

/** Returns one revision: its kind, its body if held, and for a leaf the ways to change it. */
async function revisionOf(page, db, id, leaves, rev) {
  const place = leaves.findIndex(leaf => leaf._rev === rev), leaf = leaves[place];
  const found = leaf ?? (await askUnless(isAbsent, pathTo(db, id) + query({rev}), page));
  const kind = leaf ? kindsOf(leaves)[place] : found ? "held" : "not held";
  const body = found ? code(bodyOf(found)) : el("p", {}, "No body of this revision is held here.");
  return [el("h3", {}, `${rev} `, el("span", {class: `word ${kind}`}, kind)), body, ...(leaf ? writing(db, id, leaf) : [])];
}

/** Shows a document: its tree, and one of its revisions. */
export async function one(page, db, id, asked) {
  const leaves = await askLeaves(db, id, false, page), live = leaves.filter(leaf => !leaf._deleted).length;
  if (!leaves.length) throw new Refused(404, {error: "not_found", reason: "missing"});
  const note = el("p", {class: "note"}, `${live} conflicting versions. `, link("Settle them", db, "settle", id));
  const other = form("Show", [field("Another revision", {placeholder: "N-hash", required: ""})], (page, rev) => page.go(db, "document", id, rev));
  const rev = asked ?? leaves[0]._rev, tree = await treeOrOffer(page, db, id, rev);
  page.show(heading(named(id)), live > 1 ? note : "", tree, other, ...(await revisionOf(page, db, id, leaves, rev)));
}

/** Returns the leaf that descends from a revision, or the winner, as where the paths are too long. */
async function leafAfter(page, db, id, rev) {
  const paths = await orTooLong(askLeaves(db, id, true, page));
  if (paths instanceof TooLong) return (await askLeaves(db, id, false, page))[0];
  return paths.find(leaf => pathOf(leaf).includes(rev)) ?? paths[0];
}

/** Returns an editor of a body. What was typed is kept, whatever the reply; after a conflict the newer leaf is shown beside it. */
function editor(db, idOf, leaf, more = []) {
  const area = typing("body", leaf ? typable(bodyOf(leaf)) : "{\n}"), beside = el("div", {class: "beside"});
  let parent = leaf?._rev;
  const overtaken = async page => {
    const newer = await leafAfter(page, db, idOf(), parent);
    parent = newer?._rev;
    const title = newer && el("h3", {}, `${parent} was written meanwhile${newer._deleted ? " (deleted)" : ""}`);
    const why = el("p", {}, "Nothing was saved. What you typed, compared with it:");
    beside.replaceChildren(...(newer ? [title, why, compared(bodyOf(newer), bodyTyped(area.value))] : []));
    save.textContent = newer ? `Save over ${shortRev(parent)}` : "Save";
  };
  const save = button("Save", async page => {
    try {
      await put(db, idOf(), parent, bodyTyped(area.value), page);
      markSaved(area, ...more);
      page.go(db, "document", idOf());
    } catch (error) {
      if (error.status !== 409) throw error;
      await overtaken(page);
      page.tell(el("p", {}, "409 conflict: somebody else changed this document. What you typed is kept below."));
    }
  });
  return [area, actions(save), beside];
}

/** Shows the editor of one leaf. */
export async function edit(page, db, id, rev) {
  const leaves = await askLeaves(db, id, false, page), leaf = leaves.find(one => one._rev === rev) ?? leaves[0];
  page.show(heading("Edit ", named(id)), el("p", {}, `a new revision after ${leaf?._rev}`), ...editor(db, () => id, leaf));
}

/** Shows the editor of a new document. */
export async function write(page, db) {
  const label = field("Id", {required: "", class: "kept"}), input = label.querySelector("input");
  page.show(heading("New document"), label, ...editor(db, () => input.value, null, [input]));
}
