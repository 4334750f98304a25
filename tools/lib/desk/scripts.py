"""Scripts that tools/desk_check runs in the desk's page: the bodies of async functions of `args`."""

# Returns the cells of a table's rows.
CELLS = """
return [...document.querySelectorAll(args[0] + ' tbody tr')].map(row => [...row.cells].map(cell => cell.textContent));
"""

# Returns the kind and the text of each revision that is drawn.
NODES = """
return [...document.querySelectorAll('svg.tree a')].map(a => [a.querySelector('.node').getAttribute('class').slice(5), a.textContent]);
"""

# Returns for each kind of revision what it looks like: its shape without numbers, its colours and its dashes.
LOOKS = """
const shapeOf = one => one.tagName + (one.getAttribute('d') ?? one.getAttribute('r')).replace(/[0-9. -]+/g, '');
const lookOf = one => [shapeOf(one), getComputedStyle(one).fill, getComputedStyle(one).stroke, getComputedStyle(one).strokeDasharray].join(' ');
return Object.fromEntries([...document.querySelectorAll('svg.tree .node')].map(one => [one.getAttribute('class').slice(5), lookOf(one)]));
"""

# Merges rows of bodies, whose first is the ancestor or null.
MERGES = """
const {read, write} = await import(location.origin + '/_desk/json.js');
const merges = args[0].map(([base, ...sides]) => m.merge(base === 'null' ? m.UNKNOWN : read(base), sides.map(side => read(side))));
return merges.map(({body, touching}) => [write(body), touching]);
"""

# Opens a view, and returns how many milliseconds it took until an element had a text.
SHOWN = """
const begun = performance.now(), [words, css, text] = args;
location.hash = '#/' + words.map(encodeURIComponent).join('/');
for (let took = 0; took < 20000; took = performance.now() - begun) {
  await new Promise(done => setTimeout(done, 5));
  if ([...document.querySelectorAll(css)].some(one => one.textContent.includes(text))) return performance.now() - begun;
}
return 20000;
"""

# Fetches paths, all at once, and returns how many milliseconds that took.
FETCHED = """
const begun = performance.now();
await Promise.all(args[0].map(async path => (await fetch(location.origin + path, {cache: 'no-store'})).text()));
return performance.now() - begun;
"""

# Returns the elements without a name for screen readers.
UNLABELLED = """
const isLabelled = one => one.getAttribute('aria-label') || one.labels?.length || (one.matches('a, button, summary') && one.textContent.trim());
const controls = document.querySelectorAll('a, button, summary, input, textarea, progress, svg');
return [...controls].filter(one => !isLabelled(one)).map(one => one.outerHTML);
"""

# Returns the pairs of texts, fields and drawn shapes that overlap, and whether the page is wider than the window.
OVERLAPS = """
const boxes = [];
const walker = document.createTreeWalker(document.body, NodeFilter.SHOW_TEXT);
while (walker.nextNode()) {
  const text = walker.currentNode.textContent.trim().slice(0, 40), range = document.createRange();
  range.selectNodeContents(walker.currentNode);
  const isSeen = text && walker.currentNode.parentElement.checkVisibility();
  for (const box of isSeen ? range.getClientRects() : []) if (box.width > 1) boxes.push([box, text]);
}
for (const one of document.querySelectorAll('.node, input, textarea, button, progress')) {
  boxes.push([one.getBoundingClientRect(), one.tagName + (one.textContent || one.outerHTML).slice(0, 60), one]);
}
const inner = (a, b) => a[2] && [...a[2].childNodes].some(child => child.textContent.trim().slice(0, 40) === b[1]);
const found = [];
boxes.forEach((one, place) => boxes.slice(place + 1).forEach(other => {
  const [a, b] = [one[0], other[0]];
  const across = Math.min(a.right, b.right) - Math.max(a.left, b.left), down = Math.min(a.bottom, b.bottom) - Math.max(a.top, b.top);
  if (across > 1 && down > 3 && !inner(one, other) && !inner(other, one)) found.push(one[1] + ' | ' + other[1]);
}));
if (document.documentElement.scrollWidth > innerWidth) found.push('wider than the window: ' + document.documentElement.scrollWidth);
return found;
"""

# Returns the colour of the page, and the texts whose contrast to what is under them is below 4.5.
CONTRAST = """
const parts = color => color.match(/[0-9.]+/g).map(Number);
const linear = part => (part / 255 <= 0.03928 ? part / 255 / 12.92 : ((part / 255 + 0.055) / 1.055) ** 2.4);
const light = color => parts(color).slice(0, 3).map(linear).reduce((sum, part, place) => sum + part * [0.2126, 0.7152, 0.0722][place], 0);
const isOpaque = color => (parts(color)[3] ?? 1) > 0.5;
const colorUnder = one => (isOpaque(getComputedStyle(one).backgroundColor) ? getComputedStyle(one).backgroundColor : under(one.parentElement));
const under = one => (one ? colorUnder(one) : getComputedStyle(document.body).backgroundColor);
const found = [];
for (const one of document.querySelectorAll('body *')) {
  if (![...one.childNodes].some(child => child.nodeType === 3 && child.textContent.trim())) continue;
  const style = getComputedStyle(one), color = one.namespaceURI.endsWith('svg') ? style.fill : style.color;
  const [x, y] = [light(color), light(under(one))].sort((a, b) => a - b);
  if ((y + 0.05) / (x + 0.05) < 4.5) found.push(one.tagName + ' ' + one.className + ' ' + color + ' on ' + under(one));
}
return [getComputedStyle(document.body).backgroundColor, found];
"""

# Asks with a `fetch` whose reply has this text, and no length in its head, as one that nginx compressed.
STREAMED = """
const real = fetch;
globalThis.fetch = async () => new Response(args[0]);
try { return (await m.ask('GET', '/x')).length; } catch (error) { return error.message; } finally { globalThis.fetch = real; }
"""

# Returns the texts of what can be pressed or typed in within the view.
LIVE = """
const isLive = one => one.checkVisibility() && !one.closest('[inert]') && !one.disabled;
return [...document.querySelectorAll('#view button, #view a, #view textarea, #view input, #view select')].filter(isLive).map(one => one.textContent);
"""

# Presses each button with a text that is in the page, seen or not.
PRESSED = """
for (const one of document.querySelectorAll('button')) if (one.textContent === args[0]) one.click();
"""

# Opens the list of conflicts of a database, and returns after how many milliseconds the first and the last row stood.
FLOWING = """
const [words, count] = args, begun = performance.now(), found = {first: 20000, last: 20000};
return new Promise(done => {
  const look = () => {
    const rows = document.querySelectorAll('table.conflicts tbody tr').length, took = performance.now() - begun;
    if (rows) found.first = Math.min(found.first, took);
    if (rows < count) return;
    observer.disconnect();
    done({...found, last: took});
  };
  const observer = new MutationObserver(look);
  observer.observe(document.querySelector('#view'), {childList: true, subtree: true});
  location.hash = '#/' + words.map(encodeURIComponent).join('/');
  setTimeout(() => done(found), 20000);
});
"""

# Makes the requests of such a list alone, all at once, and returns how many milliseconds that took.
PLAIN = """
const [db, ids] = args, begun = performance.now();
const get = async path => (await fetch(location.origin + path, {cache: 'no-store'})).text();
await Promise.all([get('/' + db), get(`/${db}/_changes?since=0&limit=500&style=all_docs`)]);
await Promise.all(ids.map(id => get(`/${db}/${id}?open_revs=all`)));
return performance.now() - begun;
"""

# Returns the rows of the table of members: the member, what stands at either side, and which of them is taken.
MEMBERS = """
const sideOf = cells => ['left', 'right'].filter((_, place) => cells[place + 1].querySelector('button').getAttribute('aria-pressed') === 'true').join(' ');
const textOf = cell => [...(cell.querySelector('button.take')?.children ?? [cell])].map(one => one.textContent).join(' ');
return [...document.querySelectorAll('table.members tbody tr')].map(row => [...[...row.cells].map(textOf), sideOf(row.cells)]);
"""

# Returns the places, among all elements, of those that the keys have to lead to.
REACHABLE = """
const controls = 'a[href], button, input, select, textarea, summary, [tabindex="0"]', all = [...document.querySelectorAll('body *')];
return [...document.querySelectorAll(controls)].filter(one => one.checkVisibility()).map(one => all.indexOf(one));
"""

# Returns the element that has the focus, with where it is and whether that is seen, or null.
FOCUSED = """
const one = document.activeElement, all = [...document.querySelectorAll('body *')];
if (one === document.body) return null;
const {left, right, top, bottom} = one.getBoundingClientRect(), style = getComputedStyle(one);
const isSeen = style.outlineStyle !== 'none' && parseFloat(style.outlineWidth) >= 1;
return {place: all.indexOf(one), name: one.getAttribute('aria-label') ?? one.textContent, left, right, top: top + scrollY, bottom: bottom + scrollY, isSeen};
"""

# Returns what is marked by a colour and neither by a sign nor by a word.
SIGNS = """
const found = [], expect = (css, isFine) => document.querySelectorAll(css).forEach(one => isFine(one) || found.push(one.outerHTML.slice(0, 200)));
const mark = one => getComputedStyle(one, '::before').content;
expect('.difference .added', one => one.textContent.startsWith('+ '));
expect('.difference .taken', one => one.textContent.startsWith('- '));
expect('button.take[aria-pressed="true"]', one => mark(one).includes('\u2713'));
expect('button.take[aria-pressed="false"]', one => !mark(one).includes('\u2713'));
expect('.word', one => one.textContent.trim() !== '');
expect('svg.tree a', one => / (winner|conflict|deleted|held|not held|more)$/.test(one.textContent));
return found;
"""

# Returns the names of the members in which pairs of bodies differ.
DIFFERING = """
const {read} = await import(location.origin + '/_desk/json.js');
return args[0].map(pair => m.differing(...pair.map(read)));
"""

# Returns bodies with another value at a path, and without one there.
WITH_VALUE = """
const {read, write} = await import(location.origin + '/_desk/json.js');
return args[0].map(([body, value, path]) => [read(value), m.ABSENT].map(one => write(m.withValue(read(body), path, one))));
"""

# Fetches a long reply that was asked for, and returns after how many milliseconds its versions could be settled.
SETTLED_VIEW = """
const begun = performance.now(), buttons = () => [...document.querySelectorAll('button')];
buttons().find(one => one.textContent.startsWith('Fetch')).click();
while (performance.now() - begun < 50000) {
  await new Promise(done => setTimeout(done, 20));
  if (!buttons().some(one => one.textContent === 'Settle')) continue;
  await new Promise(done => requestAnimationFrame(() => requestAnimationFrame(done)));
  return performance.now() - begun;
}
return 50000;
"""

# Opens the list of conflicts of a database, and returns what it says of how far it is, until it is whole.
PROGRESS = """
const told = [];
return new Promise(done => {
  const look = () => {
    const text = document.querySelector('#view [role=status]')?.textContent ?? '', bar = document.querySelector('#view progress');
    if (bar && text) told.push([text, bar.max, bar.value]);
    if (!text.endsWith(' documents')) return;
    observer.disconnect();
    done(told);
  };
  const observer = new MutationObserver(look);
  observer.observe(document.querySelector('#view'), {childList: true, subtree: true});
  location.hash = '#/' + args[0];
  setTimeout(() => done(told), 20000);
});
"""
