// Lists: databases, documents by pages, and what changed last.
import {ask, askUnless, pathTo, query} from "./client.js";
import {write} from "./json.js";
import {field, heading, link, pages, revsOf, row, shortRev, table} from "./elements.js";
import {form} from "./page.js";

const PAGE = 25;

/** Shows the databases to server admins; others enter the name of one. */
export async function databases(page) {
  const open = form("Open", [field("Database", {required: ""})], (page, db) => page.go(db));
  const names = await askUnless(error => error.rule === "server_admin", "/_all_dbs", page);
  const rows = (names ?? []).map(name => row(link(name, name)));
  page.show(heading(names ? `${names.length} databases` : "Only server admins can list databases"), open, table("databases", ["name"], rows));
}

/** Shows a page of documents by id: from an id on, or before one. */
export async function documents(page, db, way, id) {
  const back = way === "before", key = id === undefined ? undefined : write(id);
  const asked = query({limit: PAGE + 1, startkey: key, descending: back || undefined, skip: back ? 1 : undefined});
  const {rows, total_rows: total, offset} = await ask("GET", `${pathTo(db)}/_all_docs${asked}`, page);
  const listed = back ? rows.slice(0, PAGE).reverse() : rows.slice(0, PAGE), more = rows.length > PAGE;
  const before = listed.length && (back ? more : Number(offset) > 0), behind = back ? id : rows[PAGE]?.id;
  const go = (page, from) => page.go(db, "documents", ...(from ? ["from", from] : []));
  const start = form("Go", [field("From the id", {value: way === "from" ? id : ""})], go);
  const lines = listed.map(one => row(link(one.id, db, "document", one.id), shortRev(one.value.rev)));
  page.show(heading(`${write(total)} documents`), start, table("documents", ["id", "revision"], lines),
    pages(before && link("previous page", db, "documents", "before", listed[0].id), behind && link("next page", db, "documents", "from", behind)));
}

/** Shows a page of changes, the newest first. */
export async function changes(page, db, before) {
  const {update_seq: newest} = await ask("GET", pathTo(db), page);
  const last = BigInt(before ?? write(newest)), since = last > PAGE ? last - BigInt(PAGE) : 0n;
  const {results} = await ask("GET", `${pathTo(db)}/_changes` + query({since, limit: PAGE, style: "all_docs"}), page);
  const listed = results.filter(one => BigInt(write(one.seq)) <= last).reverse();
  const lines = listed.map(one => row(write(one.seq), link(one.id, db, "document", one.id), one.deleted ? "deleted" : "", revsOf(one.changes)));
  page.show(heading(`Changes up to ${last}`), table("changes", ["sequence", "document", "", "leaves"], lines),
    pages(before && link("newest", db, "changes"), since > 0n && link("older", db, "changes", `${since}`)));
}
