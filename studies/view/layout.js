// Where everything is, in crosspoints: a node has its crossbar at the left and the nodes below it in a grid at the right.

const GAP = 6, HEAD = 5, LABEL = 11, TABLE_WIDTH = 5;

function measure(node) {
  const own = [LABEL + node.lines + (node.level === 3 ? TABLE_WIDTH : 0) + GAP, HEAD + node.taps + GAP];
  node.children.forEach(measure);
  if (!node.children.length) {
    [node.width, node.height] = own;
    return;
  }
  const { width, height } = node.children[0], count = node.children.length;
  let least = Infinity;
  for (let columns = 1; columns <= count; columns++) {
    const across = own[0] + columns * (width + GAP) + GAP;
    const down = HEAD + Math.max(own[1], Math.ceil(count / columns) * (height + GAP)) + GAP;
    const size = Math.max(across / 1.5, down);  // screens are half as wide again as high
    if (size >= least) continue;
    least = size;
    [node.columns, node.width, node.height] = [columns, across, down];
  }
}

function place(node, x, y) {
  node.x = x;
  node.y = y;
  node.left = x + LABEL;
  node.top = y + HEAD;
  const right = node.left + node.lines + 2 * GAP;
  node.children.forEach((child, k) => {
    const column = k % node.columns, row = Math.floor(k / node.columns);
    place(child, right + column * (child.width + GAP), node.top + row * (child.height + GAP));
  });
}

// The places of a wire, each with its two ends: as a line from top to bottom, as a tap from left to right.
function placesOf(machine, wire) {
  return machine.nodesWith(wire).map(node => {
    const position = machine.tapPosition(node, wire);
    if (position < 0) {
      const x = node.left + wire - node.firstLine + 0.5;
      return { node, x1: x, y1: node.top - 1, x2: x, y2: node.top + node.taps };
    }
    const y = node.top + position + 0.5;
    return { node, x1: node.left - 0.5, y1: y, x2: node.left + node.lines, y2: y };
  });
}

function placeOfCross(machine, cross) {
  const node = machine.nodeOfCross(cross), offset = cross - node.firstCross;
  return { node, x: node.left + offset % node.lines + 0.5, y: node.top + Math.floor(offset / node.lines) + 0.5 };
}

// The innermost node at a place.
function nodeAt(node, x, y) {
  const below = node.children.find(child => x >= child.x && y >= child.y && x < child.x + child.width && y < child.y + child.height);
  return below ? nodeAt(below, x, y) : node;
}

// The rectangle around a part, for the picture to go to.
function areaOf(machine, scene, kind, at) {
  if (kind === "node") return machine.nodes[at];
  if (kind === "crossbar") {
    const { x, y, lines, taps } = machine.nodes[at];
    return { x, y, width: LABEL + lines + GAP, height: HEAD + taps + GAP };
  }
  const places = kind === "wire" ? placesOf(machine, at) : kind === "cross" ? [placeOfCross(machine, at)]
    : kind === "table" ? placesOf(machine, machine.pinOf(at, 3)) : scene.nets[at].crosses.map(cross => placeOfCross(machine, cross));
  const across = places.flatMap(spot => spot.x === undefined ? [spot.x1, spot.x2] : [spot.x]);
  const down = places.flatMap(spot => spot.y === undefined ? [spot.y1, spot.y2] : [spot.y]);
  const x = Math.min(...across) - 12, y = Math.min(...down) - 12;
  return { x, y, width: Math.max(...across) + 12 - x, height: Math.max(...down) + 12 - y };
}
