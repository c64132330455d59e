// Finds nodes of a tree by their bytes.

/** Returns the number of the last node that begins at this byte or before it. */
function lastBegunBy(tree, byte) {
  let [from, to] = [0, tree.length];
  while (from + 1 < to) {
    const middle = (from + to) >> 1;
    if (tree.node(middle).begin <= byte) from = middle;
    else to = middle;
  }
  return from;
}

/** Returns the nodes that begin at this byte, those within others first. */
export function nodesBeginningAt(tree, byte) {
  const found = [];
  for (let it = tree.node(lastBegunBy(tree, byte)); it?.begin === byte; it = tree.node(it.number - 1)) found.push(it);
  return found;
}

/** Returns the innermost node that holds this byte; the file if none does. */
export function innermostAt(tree, byte) {
  let it = tree.node(lastBegunBy(tree, byte));
  while (it.number > 0 && it.end <= byte) it = tree.node(it.number - 1);
  return it;
}

/** Returns a node and those around it, the innermost first. */
export function nodesAround(tree, node) {
  const around = [];
  for (let it = node; it; it = tree.node(it.number - 1)) {
    if (it.number + it.inner >= node.number) around.push(it);
  }
  return around;
}

/** Returns the nodes that hold this byte, each within the one before it. A byte past the end is held by the last ones. */
export function pathTo(tree, byte) {
  const path = [tree.root];
  for (let it = tree.root; it; ) {
    const children = [...it.children()];
    it = children.findLast((child) => child.begin <= byte && (byte < child.end || child.end === tree.root.end));
    if (it) path.push(it);
  }
  return path;
}
