// Who may do what, as the server says it, and local documents.
import {Stopped, ask, askDesigns, askUnless, bodyOf, bodyTyped, isAbsent, pathTo, put} from "./client.js";
import {shown} from "./json.js";
import {actions, code, el, field, heading, link, named, row, shortRev, table, typing} from "./elements.js";
import {button, failure, form, markSaved} from "./page.js";

/**
 * Requests that change nothing, because each is refused in any case: a denial is reported before the fault of the request,
 * and the status of that fault stands here last.
 */
const QUESTIONS = {
  "list databases": () => ["GET", "/_all_dbs", 200],
  "read this database": db => ["GET", pathTo(db), 200],
  "write the security object": db => ["PUT", `${pathTo(db)}/_security`, 400, []],
  "write design documents": db => ["DELETE", pathTo(db, "_design/desk"), 409],
};

/** Asks whether the caller may do something, and returns a row with the server's reply. */
async function mayI(what, db, page) {
  const [method, path, fault, body] = QUESTIONS[what](db);
  const error = await ask(method, path, {...page, body, isWrite: false}).then(() => null, refused => refused);
  if (error instanceof Stopped) throw error;
  return row(what, !error || error.status === fault ? "yes" : el("div", {}, "no", ...failure(error)));
}

/** Saves a document again as it is: no other request is judged by update rules. */
async function writeAgain(page, db, id, answer) {
  const now = await ask("GET", pathTo(db, id), page);
  const yes = rev => [el("p", {}, `yes: saved as ${shortRev(rev)}, with the body of ${shortRev(now._rev)}.`)];
  const no = error => (error instanceof Stopped ? Promise.reject(error) : [el("p", {}, "no"), ...failure(error)]);
  answer.replaceChildren(...(await put(db, id, now._rev, bodyOf(now), page).then(yes, no)));
}

/** Returns the form that tests one document. */
function askingOfOne(db) {
  const answer = el("div", {class: "answer", role: "status"}), id = field("Document", {required: ""});
  const asking = form("Test by saving it again, unchanged", [id], (page, text) => writeAgain(page, db, text, answer), "fields may");
  const why = "Only a write shows what the update rules allow. A refused write changes nothing; an accepted one adds a revision with the same body.";
  return [el("h3", {}, "May you write this document?"), el("p", {}, why), asking, answer];
}

const ruleOf = (db, {_id, validate_doc_update: rule}) => [el("p", {}, link(_id, db, "document", _id)), code(rule, "rule")];

/** Shows what the caller may do, the update rules, and the security object. */
export async function access(page, db) {
  const security = await ask("GET", `${pathTo(db)}/_security`, page), area = typing("security object", shown(security));
  const rules = (await askDesigns(db, page)).filter(one => one.validate_doc_update !== undefined);
  const mine = await Promise.all(Object.keys(QUESTIONS).map(what => mayI(what, db, page)));
  const save = button("Save the security object", async page => {
    await ask("PUT", `${pathTo(db)}/_security`, {...page, body: bodyTyped(area.value)});
    markSaved(area);
    page.again();
  });
  page.show(heading("Access"), table("may", ["you may", "reply of the server"], mine), ...askingOfOne(db),
    el("h3", {}, `Update rules: ${rules.length}`), ...rules.flatMap(rule => ruleOf(db, rule)),
    el("h3", {}, "Security object"), area, actions(save));
}

/** Shows a local document, given its name. */
export async function local(page, db, name) {
  const open = form("Open", [field("Name, behind _local/", {value: name ?? "", required: ""})], (page, other) => page.go(db, "local", other));
  if (name === undefined) return page.show(heading("Local documents"), el("p", {}, "Local documents are not listed: enter a name."), open);
  const now = await askUnless(isAbsent, pathTo(db, `_local/${name}`), page), area = typing("body", shown(now ? bodyOf(now) : {}));
  const save = button("Save", async page => {
    await put(db, `_local/${name}`, now?._rev, bodyTyped(area.value), page);
    markSaved(area);
    page.again();
  });
  page.show(heading("_local/", named(name)), el("p", {}, now ? now._rev : "never written"), open, area, actions(save));
}
