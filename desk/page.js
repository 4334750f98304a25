// The view on the screen: what acts on it, what it waits for, and how it is left. A view that was left acts no more.
import {Stopped, TooLong, isChanging} from "./client.js";
import {actions, el, heading, link, megabytes, placeOf, wordsHere} from "./elements.js";

/** How long a work may take until a sign of it is shown, in milliseconds. */
const PATIENCE = 300;

const newView = () => ({works: new Set(), isPressed: false, whenLeft: () => {}});
const placed = id => document.getElementById(id);

let view = newView(), address = location.hash, site = null;

/** Shows a message, which screen readers announce, or clears it. */
export const tell = (...children) => placed("told").replaceChildren(...children);

/** Returns the elements that report a failure; a denial names its rule. */
export function failure(error) {
  if (!error.status) return [el("p", {}, error.message)];
  const rule = error.rule?.startsWith("_design/") ? link(error.rule, wordsHere()[0], "document", error.rule) : error.rule;
  const parts = [["status", `${error.status}`], ["error", error.error], ["reason", error.reason], ["rule", rule]];
  return [el("dl", {}, ...parts.filter(([, said]) => said).flatMap(([name, said]) => [el("dt", {}, name), el("dd", {}, said)]))];
}

// ---- the works of a view: its load, and each press

/** Shows the elements of the view, and moves the focus to its heading. */
function show(...children) {
  placed("view").replaceChildren(...children);
  placed("view").querySelector("h2")?.focus({preventScroll: true});
}

/**
 * Begins a work of the view on the screen, and returns what it is given: the signal of its requests, and ways to show
 * and to report. Once another view is on the screen the signal is aborted, and the others do nothing.
 */
function begin(text, limit) {
  const mine = view, ended = new AbortController(), ifHere = act => (...given) => (mine === view ? act(...given) : undefined);
  const work = {text, limit, signal: ended.signal, stop: () => ended.abort(), isHere: () => mine === view, isLate: false};
  const quiet = () => Object.assign(work, {text: ""}), end = () => mine.works.delete(work);
  const beforeLeft = whenLeft => Object.assign(mine, {whenLeft});
  mine.works.add(work);
  return Object.assign(work, {show: ifHere(show), tell: ifHere(tell), go: ifHere(goTo), again: ifHere(again), quiet, beforeLeft, end});
}

/** Draws the sign of what the view waits for, if that takes long. */
function drawSign() {
  const sign = placed("waiting"), {text} = [...view.works].find(work => work.isLate && work.text) ?? {text: ""};
  if (sign.dataset.text === text) return;
  sign.dataset.text = text;
  sign.replaceChildren(...(text ? [el("span", {}, text), " ", el("button", {type: "button", click: stopAll}, "Stop (Escape)")] : []));
}

/** Stops what the view waits for. */
function stopAll() {
  for (const work of view.works) work.stop();
}

/** Does a work of the view, with a sign and a way to stop it where it takes long. */
async function perform(text, doing, failed, limit) {
  const work = begin(text, limit);
  const late = setTimeout(() => {
    work.isLate = true;
    drawSign();
  }, PATIENCE);
  try {
    await doing(work);
  } catch (error) {
    if (work.isHere()) failed(error, work);
  }
  clearTimeout(late);
  work.end();
  drawSign();
}

/** Has the fields of the view keep what is typed in them, while a press sends it. */
function lock(isLocked) {
  for (const one of placed("view").querySelectorAll("textarea, input")) one.readOnly = isLocked;
}

/** Does what a press is for, unless the view waits for another one; `made` is the element that was pressed. */
async function press(made, doing) {
  const mine = view;
  if (mine.isPressed || !made.isConnected) return;
  mine.isPressed = true;
  made.setAttribute("aria-disabled", "true");
  lock(true);
  tell();
  await perform("waiting for the server ..", work => doing(work, made), error => tell(...failure(error)));
  made.removeAttribute("aria-disabled");
  if (mine === view) lock(false);
  mine.isPressed = false;
}

/** Returns what listens to a press. Its work is given what `begin` returns, and the element that was pressed. */
export const pressed = work => event => {
  event.preventDefault();
  press(event.currentTarget, work);
};

export const button = (text, work, attributes = {}) => el("button", {type: "button", click: pressed(work), ...attributes}, text);

/** Returns a form; its work is also given the values of its fields. */
export function form(text, fields, work, name = "fields") {
  const sent = (page, made) => {
    const inputs = [...made.querySelectorAll("input")];
    return work(page, ...inputs.map(input => (input.type === "checkbox" ? input.checked : input.value)));
  };
  return el("form", {class: name, submit: pressed(sent)}, ...fields, el("button", {}, text));
}

// ---- how a view is left

const typed = () => [...placed("view").querySelectorAll("textarea, input.kept")].filter(one => one.value !== one.defaultValue);

/** Notes that what is typed in these fields is saved. */
export const markSaved = (...fields) => fields.forEach(one => Object.assign(one, {defaultValue: one.value}));

/** Asks whether what is typed may be lost, and goes on to an address if so. */
function askToLeave(wanted) {
  const dialog = placed("leaving");
  const leave = () => {
    dialog.close();
    placed("view").replaceChildren();
    leaveFor(wanted);
  };
  const stay = el("button", {type: "button", click: () => dialog.close(), autofocus: ""}, "Stay here");
  const lose = el("button", {type: "button", click: leave}, "Leave and lose it");
  dialog.replaceChildren(el("p", {}, "What you typed here isn't saved."), actions(stay, " ", lose));
  if (!dialog.open) dialog.showModal();
}

/** Goes on to an address, which may be the one of the view on the screen. */
function leaveFor(wanted) {
  if (typed().length) askToLeave(wanted);
  else if (wanted === location.hash) openHere();
  else location.assign(wanted);
}

const goTo = (...words) => leaveFor(placeOf(...words));
const again = limit => (typed().length ? askToLeave(location.hash) : openHere(limit));

/** Has the address name also what the view shows now, as a query; nothing is loaded again. */
export function readdress(...words) {
  history.replaceState(null, "", placeOf(...words));
  address = location.hash;
}

/** Follows the address, or has it name the view on the screen again while what is typed there may be lost. */
function moved() {
  const wanted = location.hash;
  if (!typed().length) return openHere();
  if (wanted !== address) history.pushState(null, "", address);
  askToLeave(wanted);
}

/** Removes the view on the screen, whose requests end, before the next one asks for anything. */
function removeView() {
  const wasChanging = isChanging();
  view.whenLeft();
  stopAll();
  view = newView();
  address = location.hash;
  placed("view").replaceChildren();
  placed("leaving").close();
  site.frame();
  tell(...(wasChanging ? [el("p", {}, "The view before was left while a change was under way: whether the server made it isn't known.")] : []));
  drawSign();
}

/** Reports why a view can't be shown, with a way to load it again. */
function failedToLoad(error, page) {
  const retry = button(error instanceof TooLong ? `Fetch ${megabytes(error.bytes)}` : "Load again", page => page.again(error.bytes && Infinity));
  if (error instanceof Stopped) return page.show(heading("Stopped"), el("p", {}, "Nothing was loaded."), actions(retry));
  page.show();
  page.tell(...failure(error), ...(error.status && error.status < 500 ? [] : [retry]));
}

/** Opens the view that the address names; longer replies than the limit are not fetched. */
function openHere(limit) {
  removeView();
  const load = page => {
    const words = wordsHere();
    site.frame(...words);
    return site.load(page, ...words);
  };
  return perform("loading ..", load, failedToLoad, limit);
}

/** Opens the view that the address names, now and whenever it changes: `frame` draws what is around a view, `load` shows it. */
export function start(frame, load) {
  site = {frame, load};
  addEventListener("hashchange", moved);
  addEventListener("beforeunload", event => typed().length && event.preventDefault());
  addEventListener("keydown", event => event.key === "Escape" && !event.isComposing && !placed("leaving").open && stopAll());
  openHere();
}
