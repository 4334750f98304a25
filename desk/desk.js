// The frame of the desk: which views there are, and where the reader is.
import {askUser} from "./client.js";
import {isExact} from "./json.js";
import {el, link, placeOf} from "./elements.js";
import {start, tell} from "./page.js";
import {changes, databases, documents} from "./lists.js";
import {conflicts, markVisited} from "./conflicts.js";
import {edit, one, write} from "./document.js";
import {settle} from "./settle.js";
import {find, views} from "./queries.js";
import {access, local} from "./access.js";

const VIEWS = {conflicts, documents, changes, find, views, access, local, document: one, edit, new: write, settle};
const OF_ONE = ["document", "edit", "settle"];
const TABS = ["conflicts", "documents", "new", "changes", "find", "views", "access", "local"];

/** Shows the path to a view, and the other views of its database. */
function frame(db, view = "conflicts", ...rest) {
  const id = OF_ONE.includes(view) ? [link(rest[0], db, "document", rest[0])] : [];
  document.getElementById("where").replaceChildren(link("databases"), ...(db ? [link(db, db)] : []), ...id);
  const tabs = TABS.map(name => el("a", {href: placeOf(db, name), "aria-current": name === view ? "page" : undefined}, name));
  document.getElementById("tabs").replaceChildren(...(db ? tabs : []));
  document.title = ["desk", ...(db ? [db, view, ...rest.slice(0, 1)] : [])].join(" / ");
}

/** Shows the view that these words name. */
function load(page, db, view = "conflicts", ...rest) {
  if (!db) return databases(page);
  if (OF_ONE.includes(view)) markVisited(db, rest[0]);
  return (VIEWS[view] ?? conflicts)(page, db, ...rest);
}

if (isExact) {
  askUser().then(user => document.getElementById("user").append(user && "you are ", el("bdi", {}, user)));
  start(frame, load);
} else tell("This browser rounds large numbers, which would spoil documents: it lacks JSON.rawJSON (Chrome 114, Firefox 135, Safari 18.4).");
