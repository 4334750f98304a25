// The revision tree of a document, without the page: the kind of each revision, and the row and lane it is drawn in.

/** Returns the kind of each leaf; leaves are listed best first. */
export const kindsOf = leaves => leaves.map((leaf, place) => (leaf._deleted ? "deleted" : place === 0 ? "winner" : "conflict"));

/** Returns the path of a leaf: itself, then its ancestors. */
export const pathOf = ({_revisions: {start, ids}}) => ids.map((hash, back) => `${start - back}-${hash}`);

/** Returns the newest common ancestor of these leaves, or null. */
export function commonAncestor(leaves) {
  const [first, ...others] = leaves.map(pathOf), sets = others.map(path => new Set(path));
  return first?.find(rev => sets.every(set => set.has(rev))) ?? null;
}

/** Returns all revisions by name: kind, parent, and children, the one towards the best leaf first. */
export function historyOf(leaves) {
  const nodes = new Map(), kinds = kindsOf(leaves);
  leaves.forEach((leaf, place) => addPath(nodes, pathOf(leaf), kinds[place]));
  return nodes;
}

/** Adds the revisions of a path, up to the first that is known. */
function addPath(nodes, path, kind) {
  for (const [back, rev] of path.entries()) {
    const child = path.slice(Math.max(back - 1, 0), back), known = nodes.get(rev);
    if (known) return void known.children.push(...child);
    nodes.set(rev, {rev, kind: back ? "inner" : kind, parent: path[back + 1] ?? null, children: child});
  }
}

const SHORT_RUN = 3, UNFOLDED = 25;

/** Returns the rows of revisions with one child each: a long run is folded into one row, unless it was unfolded. */
function fold(run, unfolded) {
  if (run.length <= SHORT_RUN) return run;
  if (!unfolded.has(run[0].rev)) return [{kind: "run", rev: run[0].rev, hidden: run.length, parent: run[0].parent}];
  return [...run.slice(0, UNFOLDED), ...fold(run.slice(UNFOLDED), unfolded)];
}

/** Returns the rows from a revision to the next fork or leaf. A root is always shown. */
function chain(nodes, rev, unfolded) {
  const run = [nodes.get(rev)];
  while (run.at(-1).children.length === 1) run.push(nodes.get(run.at(-1).children[0]));
  const roots = run[0].parent === null ? run.splice(0, 1) : [], last = run.splice(-1);
  return [...roots, ...fold(run, unfolded), ...last];
}

/**
 * Returns the rows of a drawing, from a root down: `{kind, rev, lane, above, hidden}`, where `above` is the index of
 * the parent's row, or null. The line to the best leaf keeps its lane; other branches are drawn before it goes on.
 */
export function rowsOf(leaves, unfolded = new Set()) {
  const nodes = historyOf(leaves), rows = [];
  const roots = [...nodes.values()].filter(node => node.parent === null);
  const waiting = roots.map(({rev}) => ({rev, lane: 0, above: null})).reverse();
  while (waiting.length) {
    let {rev, lane, above} = waiting.pop();
    for (const row of chain(nodes, rev, unfolded)) {
      rows.push({...row, lane, above});
      above = rows.length - 1;
    }
    const [best, ...others] = rows.at(-1).children ?? [];
    if (best) waiting.push({rev: best, lane, above}, ...others.map(other => ({rev: other, lane: lane + 1, above})).reverse());
  }
  return rows;
}
