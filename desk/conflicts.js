// The documents in conflict of a database: how they are found, and kept, so that one is settled after the other.
import {LIMIT, Stopped, TooLong, ask, askLeaves, orTooLong, pathTo, query} from "./client.js";
import {plain, write} from "./json.js";
import {el, heading, link, megabytes, placeOf, revsOf, row, table} from "./elements.js";
import {button, failure} from "./page.js";

/** How many changes are requested at once, how many documents first, and how often new rows are drawn, in milliseconds. */
const MOST = 500, FEW = 4, PACE = 100;

// ---- what was found, until the page is loaded again

/** The lists by database: entries in the order of their sequences, settled ones too, and how far they were looked up. */
const lists = new Map();

const emptyList = () => ({entries: [], byId: new Map(), since: 0, looked: 0, isWhole: false, scroll: 0, at: null});
const listOf = db => lists.get(db) ?? lists.set(db, emptyList()).get(db);

/** Has the next look-up begin anew. */
export const forget = db => lists.delete(db);

/** Adds an entry behind those of lower sequences. */
function insert(list, entry) {
  let place = list.entries.length;
  while (place && list.entries[place - 1].seq > entry.seq) place--;
  list.entries.splice(place, 0, entry);
  list.byId.set(entry.id, entry);
}

/** Keeps what was found of a document: its versions, or null where it has no conflict. Returns its entry, if it has one. */
function note(list, {id, seq}, found) {
  if (found && !list.byId.has(id)) insert(list, {id, seq: BigInt(write(seq))});
  const entry = list.byId.get(id);
  return entry && Object.assign(entry, {isSettled: !found, ...found});
}

const openOnes = entries => entries.filter(entry => !entry.isSettled);

/** Notes that a document was settled: it leaves the list, and is in its numbers still. */
export function markSettled(db, id) {
  const entry = listOf(db).byId.get(id);
  if (entry) entry.isSettled = true;
}

/** Notes that a document was looked at: the list goes on there. */
export function markVisited(db, id) {
  const list = listOf(db);
  list.at = list.byId.get(id) ?? list.at;
}

/** Returns where a document is among those that were found, and its neighbours that are not settled. */
export function placeAmong(db, id) {
  const {entries, byId} = listOf(db), place = entries.indexOf(byId.get(id));
  const others = openOnes([...entries.slice(place + 1), ...entries.slice(0, Math.max(place, 0))]);
  const numbered = entry => entry && {id: entry.id, number: entries.indexOf(entry) + 1};
  return {number: place + 1, of: entries.length, next: numbered(others[0]), previous: numbered(others.at(-1))};
}

// ---- looking up

/** Yields the changes with all leaves, in parts that are short enough; without the leaves where those of one document are not. */
async function* changeParts(db, since, options) {
  for (let limit = MOST; ; ) {
    const asked = query({since, limit: Math.max(limit, 1), style: limit ? "all_docs" : undefined});
    const part = await orTooLong(ask("GET", `${pathTo(db)}/_changes${asked}`, options));
    if (part instanceof TooLong) limit >>= 1;
    else {
      since = write(part.last_seq);
      if (part.results.length) yield {since, results: limit ? part.results : [{...part.results[0], changes: null}]};
      if (part.results.length < Math.max(limit, 1)) return;
      limit = Math.min(Math.max(limit, 1) * 2, MOST);
    }
  }
}

/** Returns the versions of a document that has several, or null. It costs a request only where there are several leaves. */
async function conflictOf(db, {id, changes}, options) {
  if (changes?.length === 1) return null;
  const leaves = changes ? await orTooLong(askLeaves(db, id, false, options)) : new TooLong(LIMIT);
  if (leaves instanceof TooLong) return {count: changes ? `up to ${changes.length}` : "many", text: `not checked: over ${megabytes(LIMIT)}`};
  const live = leaves.filter(leaf => !leaf._deleted);
  return live.length > 1 ? {count: `${live.length}`, text: revsOf(live)} : null;
}

/** Looks up what changed since the list was looked up last, and reports each document with its entry. */
async function lookUp(page, db, list, report) {
  const look = async change => report(note(list, change, await conflictOf(db, change, page)));
  for await (const {results, since} of changeParts(db, list.since, page)) {
    const isOne = ({changes}) => changes?.length === 1, many = results.filter(change => !isOne(change));
    const begun = [...results.filter(isOne), ...many.slice(0, FEW)].map(look);
    // A row stands before the many requests are made. They are made at once: browsers queue them with less work than a script.
    if (many.length) await Promise.race(begun.slice(-FEW)).catch(() => {});
    await Promise.all([...begun, ...many.slice(FEW).map(look)]);
    list.since = since;
    if (!list.isWhole) list.looked += results.length;
  }
  list.isWhole = true;
}

// ---- the list on the screen

/** Keeps the rows of a table as the list is: `add` notes an entry, and `draw` draws all that were noted together. */
function rowsOf(db, list, body) {
  const drawn = new Map(), waiting = new Set();
  const settleLink = id => el("a", {href: placeOf(db, "settle", id), "aria-label": `settle ${plain(id)}`}, "settle");
  const lineOf = ({id, count, text}) => row(link(id, db, "document", id), count, text, settleLink(id));
  const behind = entry => {
    let next = null;
    for (let place = list.entries.length - 1; list.entries[place] !== entry; place--) next = drawn.get(list.entries[place]) ?? next;
    return next;
  };
  const drawOne = entry => {
    drawn.get(entry)?.remove();
    drawn.delete(entry);
    if (!entry.isSettled) drawn.set(entry, body.insertBefore(lineOf(entry), behind(entry)));
  };
  const draw = () => {
    waiting.forEach(drawOne);
    waiting.clear();
  };
  for (const entry of openOnes(list.entries)) drawn.set(entry, body.appendChild(lineOf(entry)));
  return {drawn, add: entry => waiting.add(entry), draw};
}

/** Says how many were found, and how far a look-up is: `passed` documents of `total`. */
function sumsOf(list, said, bar) {
  const sums = {total: 0, passed: list.isWhole ? 0 : list.looked, end: " so far"};
  sums.draw = () => {
    const found = openOnes(list.entries).length, settled = list.entries.length - found, all = Math.max(sums.total, list.looked);
    const among = list.isWhole || !all ? all : `${sums.passed} of ${all}`;
    said.replaceChildren(`${found} found among ${among} documents${settled ? `, ${settled} settled` : ""}${sums.end}`);
    Object.assign(bar, {max: Math.max(all, 1), value: sums.passed});
  };
  return sums;
}

/** Goes back to where the reader was in the list: at the document that was looked at last, or the next one that is left. */
function resume(list, drawn) {
  const at = list.at?.isSettled ? openOnes(list.entries).find(entry => entry.seq > list.at.seq) : list.at;
  drawn.get(at)?.querySelector("a").focus({preventScroll: true});
  scrollTo(0, list.scroll);
}

/** Looks up what the list lacks, or all of it where the database was made anew since. */
async function complete(page, db, list, sums, report) {
  const asked = ask("GET", pathTo(db), page).then(found => {
    sums.total = Number(found.doc_count) + Number(found.doc_del_count);
    return found;
  });
  if (list.isWhole && BigInt(write((await asked).update_seq)) < BigInt(list.since)) return lookAgain(page, db);
  return Promise.all([asked, lookUp(page, db, list, report)]);
}

/** Begins a list anew. */
function lookAgain(page, db) {
  forget(db);
  page.again();
}

/** Shows the documents with more than one leaf that is not deleted: those that are known at once, others as they are found. */
export async function conflicts(page, db) {
  const list = listOf(db), shown = table("conflicts", ["document", "versions", "revisions", ""], []), rows = rowsOf(db, list, shown.tBodies[0]);
  const bar = el("progress", {max: 1, value: 0, "aria-label": "how far"}), said = el("p", {role: "status"}), sums = sumsOf(list, said, bar);
  const how = el("p", {class: "progress"}, bar, " ", el("button", {type: "button", click: page.stop}, "Stop (Escape)"));
  let timer;
  const draw = () => {
    clearTimeout(timer);
    timer = undefined;
    rows.draw();
    sums.draw();
  };
  const report = entry => {
    sums.passed++;
    if (entry) rows.add(entry);
    if (entry && !rows.drawn.size) draw();
    else timer ??= setTimeout(draw, PACE);
  };
  const end = text => {
    sums.end = text;
    draw();
    how.replaceChildren(button("Look again", page => lookAgain(page, db)));
  };
  draw();
  page.show(heading("Documents with conflicts"), said, how, shown);
  page.quiet();
  page.beforeLeft(() => Object.assign(list, {scroll: scrollY}));
  resume(list, rows.drawn);
  try {
    await complete(page, db, list, sums, report);
    end("");
  } catch (error) {
    page.stop();
    if (!(error instanceof Stopped) && !list.entries.length) throw error;
    end(`; stopped at ${sums.passed} of ${Math.max(sums.total, list.looked)}`);
    page.tell(...(error instanceof Stopped ? [] : failure(error)));
  }
}
