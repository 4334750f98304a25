// What is asked of the server, without the page.
import {isObject, read, write} from "./json.js";

/** The longest reply that is fetched without asking, in bytes. */
export const LIMIT = 1e6;

/** An error reply: its status, and the server's `error`, `reason` and, of a denial, `rule`. */
export class Refused extends Error {
  constructor(status, {error, reason, rule}) {
    super(`${status} ${error}: ${reason}`);
    Object.assign(this, {status, error, reason, rule});
  }
}

/** A reply that was not fetched, of at least so many bytes. */
export class TooLong extends Error {
  constructor(bytes) {
    super(`The reply is ${(bytes / 1e6).toFixed(1)} MB long, and was not fetched.`);
    this.bytes = bytes;
  }
}

/** What ended a request before its reply: somebody stopped it, or left the view that it was for. */
export class Stopped extends Error {
  constructor(isWrite) {
    super(isWrite ? "Stopped before the server replied: whether it made the change isn't known." : "Stopped.");
  }
}

/** Stand for the changes that are under way: those that were sent and aren't answered yet, and rows of such. */
const changing = new Set();

export const isChanging = () => changing.size > 0;

/** Does some work, which counts as a change under way. */
export async function underWay(work) {
  const mark = {};
  changing.add(mark);
  try {
    return await work();
  } finally {
    changing.delete(mark);
  }
}

/** Returns the path of a database, of a document, or of another page. */
export function pathTo(...parts) {
  // Browsers remove these two from any path, even escaped.
  if (parts.some(part => part === "." || part === "..")) throw new Error("A browser can't ask for the id . or ..");
  return "/" + parts.map(encodeURIComponent).join("/");
}

/** Returns a query of these parameters, without those that are undefined. */
export const query = asked => "?" + new URLSearchParams(Object.entries(asked).filter(([, value]) => value !== undefined));

/** Returns the text of a reply that is not longer than the limit; its length may not be known before. */
async function textOf(reply, limit) {
  let bytes = Number(reply.headers.get("Content-Length") ?? NaN), text = "";
  if (bytes <= limit) return reply.text();
  const reader = reply.body.getReader(), decoder = new TextDecoder();
  for (let part; !(bytes > limit) && !(part = await reader.read()).done; bytes = (bytes || 0) + part.value.length)
    text += decoder.decode(part.value, {stream: true});
  if (!(bytes > limit)) return text + decoder.decode();
  reader.cancel();
  throw new TooLong(bytes);
}

/** Returns the value of a text, or an error of that form where it is not JSON, as nginx's own pages. */
function valueOf(text) {
  try {
    return read(text);
  } catch {
    return {error: "no reply of couchd", reason: text.replace(/<[^>]*>/g, " ").trim().slice(0, 200)};
  }
}

/** Sends a request and returns the text of its reply, with its status; throws TooLong, Stopped, or what `fetch` throws. */
async function send(path, {limit, isWrite, ...sent}) {
  try {
    // `fetch` refuses a relative address where the page was opened with a password in its own.
    const reply = await fetch(location.origin + path, {...sent, cache: "no-store", redirect: "error"});
    return [reply.ok, reply.status, await textOf(reply, limit)];
  } catch (error) {
    throw sent.signal?.aborted ? new Stopped(isWrite) : error;
  }
}

/** Sends a request and returns the value of its reply; throws Refused, and what `send` throws. */
export async function ask(method, path, {body, signal, limit = LIMIT, isWrite = body !== undefined} = {}) {
  const sent = {method, body: body === undefined ? undefined : write(body), signal};
  const asking = () => send(path, {...sent, limit, isWrite});
  const [isFine, status, text] = await (isWrite ? underWay(asking) : asking()), value = valueOf(text);
  if (!isFine || (isObject(value) && value.error === "no reply of couchd")) throw new Refused(status, value);
  return value;
}

/** Returns the name of the user, which nginx sends as UTF-8 in a header. */
export async function askUser() {
  const reply = await fetch(location.origin + location.pathname, {method: "HEAD", cache: "no-store"});
  const bytes = Uint8Array.from(reply.headers.get("X-Desk-User") ?? "", unit => unit.charCodeAt(0));
  return new TextDecoder().decode(bytes);
}

/** Returns the reply to a GET, or null where it failed as expected. */
export const askUnless = (isExpected, path, options) =>
  ask("GET", path, options).catch(error => (isExpected(error) ? null : Promise.reject(error)));
export const isAbsent = error => error.status === 404;

/** Returns a reply, or the error where it is too long. */
export const orTooLong = asked => asked.catch(error => (error instanceof TooLong ? error : Promise.reject(error)));

/** Returns the leaves of a document, best first, with their paths where `revs` is true. */
export async function askLeaves(db, id, revs, options) {
  const leaves = await ask("GET", pathTo(db, id) + query({open_revs: "all", revs: revs || undefined}), options);
  return leaves.map(one => one.ok);
}

/** Returns revisions by name: the document, null if its body is not held, true if it is too long to be fetched. */
export async function askHeld(db, id, revs, options) {
  const half = revs.length > 50 ? 50 : revs.length >> 1;
  const found = revs.length > 50 ? null : await orTooLong(ask("GET", pathTo(db, id) + query({open_revs: write(revs)}), options));
  if (Array.isArray(found)) return new Map(found.map(one => (one.ok ? [one.ok._rev, one.ok] : [one.missing, null])));
  if (!half) return new Map([[revs[0], true]]);
  const parts = [revs.slice(0, half), revs.slice(half)].map(part => askHeld(db, id, part, options));
  return new Map((await Promise.all(parts)).flatMap(part => [...part]));
}

/** Returns the design documents, a hundred at most. */
export async function askDesigns(db, options) {
  const {rows} = await ask("GET", `${pathTo(db)}/_all_docs` + query({startkey: '"_design/"', endkey: '"_design0"', limit: 100}), options);
  return Promise.all(rows.map(({id}) => ask("GET", pathTo(db, id), options)));
}

/** Returns the body of a document. A rest pattern keeps a member `__proto__`. */
export const bodyOf = ({_id, _rev, _revisions, _deleted, ...body}) => body;

/** Reads a body that was typed. */
export function bodyTyped(text) {
  const body = read(text), special = isObject(body) && Object.keys(body).find(name => name.startsWith("_"));
  if (!isObject(body)) throw new Error("A body is an object: { .. }");
  if (special) throw new Error(`A body has no member ${special}: names that begin with _ are reserved.`);
  return body;
}

/** Writes a revision after another one, or a first one, and returns its name. */
export async function put(db, id, rev, body, {signal, isDeleted = false}) {
  const special = {...(rev && {_rev: rev}), ...(isDeleted && {_deleted: true})};
  return (await ask("PUT", pathTo(db, id), {body: {...body, ...special}, signal})).rev;
}
