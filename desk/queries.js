// Finds, the indexes that serve them, and views of declared indexes.
import {ask, askDesigns, pathTo, query} from "./client.js";
import {isObject, plain, read, shown, write} from "./json.js";
import {actions, code, el, field, heading, link, pages, row, table, typing} from "./elements.js";
import {button, form, markSaved, readdress} from "./page.js";

const PAGE = 25;

/** Returns the fields of an index that may serve a query: those of its selector, then those of its sort. */
export function fieldsOf({selector = {}, sort = []}) {
  const looked = isObject(selector) ? Object.keys(selector).filter(name => !name.startsWith("$")) : [];
  return [...new Set([...looked, ...sort.map(one => (isObject(one) ? Object.keys(one)[0] : one))])].slice(0, 8);
}

/** Returns a form that declares an index; only admins of the database may. */
function declaring(db, fields) {
  const values = {"Design document": "desk", Index: "by_" + fields.join("_"), "Fields, with commas": fields.join(",")};
  const inputs = Object.entries(values).map(([label, value]) => field(label, {value, required: ""}));
  return form("Declare", inputs, async (page, ddoc, name, list) => {
    const index = {fields: list.split(",").map(text => text.trim())};
    const made = await ask("POST", `${pathTo(db)}/_index`, {...page, body: {ddoc, name, index}});
    page.tell(el("p", {}, `${made.result}: `, link(`${made.id} ${made.name}`, db, "views", ddoc, name)));
  });
}

/** Shows a query, what it finds, and the index that could serve it. A query that ran is in the address, and runs again there. */
export async function find(page, db, before) {
  const area = typing("query", before ?? shown({selector: {}, limit: PAGE})), found = el("div", {class: "found"}), below = el("div");
  const run = async (page, skip) => {
    const typed = read(area.value), asked = {limit: PAGE, ...typed, skip: skip ?? typed.skip ?? 0};
    const {docs} = await ask("POST", `${pathTo(db)}/_find`, {...page, body: asked, isWrite: false});
    const bodies = docs.map(doc => el("details", {}, el("summary", {}, link(doc._id, db, "document", doc._id)), code(doc)));
    const more = button("More", page => run(page, Number(asked.skip) + docs.length)), isFull = docs.length && docs.length === Number(asked.limit);
    const count = el("p", {role: "status"}, `${docs.length} found${asked.skip ? ` after the first ${write(asked.skip)}` : ""}`);
    found.replaceChildren(count, ...bodies, isFull ? more : "");
    below.replaceChildren(el("h3", {}, "An index for this query"), declaring(db, fieldsOf(asked)));
    if (!page.isHere()) return;
    markSaved(area);
    readdress(db, "find", area.value);
  };
  page.show(heading("Find"), area, actions(button("Find", page => run(page))), found, below);
  if (before !== undefined) await run(page);
}

/** Shows the indexes that design documents declare. */
async function indexes(page, db) {
  const declared = (await askDesigns(db, page)).flatMap(({_id, indexes}) => Object.keys(indexes ?? {}).map(name => [_id, name]));
  const rows = declared.map(([id, name]) => row(link(name, db, "views", id.slice("_design/".length), name), link(id, db, "document", id)));
  page.show(heading("Indexes"), table("indexes", ["index", "declared by"], rows));
}

/** Shows the indexes, or a page of the rows of one, from a key on. */
export async function views(page, db, ddoc, name, way = "up", skipped = "0", start = "") {
  if (name === undefined) return indexes(page, db);
  const skip = Number(skipped), isDown = way === "down", asked = {limit: PAGE + 1, startkey: start || undefined};
  const more = query({...asked, skip: skip || undefined, descending: isDown || undefined});
  const {rows, total_rows: total} = await ask("GET", pathTo(db, "_design", ddoc, "_view", name) + more, page);
  const at = (text, from) => link(text, db, "views", ddoc, name, way, `${Math.max(from, 0)}`, start);
  const go = (page, key, down) => page.go(db, "views", ddoc, name, down ? "down" : "up", "0", key && write(read(key)));
  const box = field("descending", {type: "checkbox", checked: isDown ? "" : undefined});
  const from = form("Go", [field("From the key", {value: start, placeholder: '["Bonn"]'}), box], go);
  const lines = rows.slice(0, PAGE).map(({id, key}) => row(el("code", {}, plain(write(key))), link(id, db, "document", id)));
  page.show(heading(`${write(total)} rows of ${name}`), from, table("rows", ["key", "document"], lines),
    pages(skip && at("previous page", skip - PAGE), rows.length > PAGE && at("next page", skip + PAGE)));
}
