// What is wrong with parts, by cause. A cause has a colour and also a shape (of crosspoints), a pattern of dashes (of wires) or a letter
// (of tables), for those who don't tell the colours apart.

const CAUSES = {
  stuck0: { words: "wire stuck at 0", colour: "#0072b2", dash: [] },
  stuck1: { words: "wire stuck at 1", colour: "#e07b00", dash: [7, 4] },
  bridge: { words: "bridged wire", colour: "#00855f", dash: [2, 3] },
  short: { words: "wire listed for a short", colour: "#3f97cf", dash: [9, 3, 2, 3] },
  open: { words: "crosspoint never conducts", colour: "#c4421a", shape: "cross" },
  closed: { words: "crosspoint always conducts", colour: "#7a2f8f", shape: "square" },
  cell: { words: "table with a wrong cell", colour: "#8c4a3c", letter: "C" },
  register: { words: "table with a stuck register", colour: "#5a3b33", letter: "R" },
  thrown: { words: "sound, but listed", colour: "#b08a00", shape: "triangle", dash: [1, 5], letter: "S" },
  listed: { words: "listed", colour: "#b5294f", shape: "ring", dash: [], letter: "L" },
  missed: { words: "faulty and not listed", colour: "#000000", shape: "plus", dash: [12, 3], letter: "M" },
  gone: { words: "in the first alone", colour: "#b5294f", shape: "cross", dash: [7, 4], letter: "1" },
  come: { words: "in the second alone", colour: "#00855f", shape: "square", dash: [], letter: "2" },
  both: { words: "in both", colour: "#9aa3b2", shape: "ring", dash: [1, 5], letter: "B" },
  seldom: { words: "lost in one set of faults", colour: "#e0b050", shape: "ring", dash: [1, 5], letter: "1" },
  often: { words: "lost in several", colour: "#d07020", shape: "triangle", dash: [7, 4], letter: "2" },
  mostly: { words: "lost in half of them or more", colour: "#902010", shape: "square", dash: [], letter: "3" },
  once: { words: "used by one image", colour: "#8fb8de", shape: "ring", dash: [1, 5], letter: "1" },
  several: { words: "used by several", colour: "#3f7fbf", shape: "triangle", dash: [7, 4], letter: "2" },
  most: { words: "used by half of them or more", colour: "#1c3f73", shape: "square", dash: [], letter: "3" },
};

class Marks {
  constructor(machine) {
    this.machine = machine;
    this.kinds = { wire: new Map(), cross: new Map(), table: new Map() };
    this.byNode = null;
  }

  add(kind, at, cause, words) {
    const map = this.kinds[kind];
    if (!map.has(at)) map.set(at, { causes: [], words: [] });
    const mark = map.get(at);
    if (!mark.causes.includes(cause)) mark.causes.push(cause);
    if (words) mark.words.push(words);
    this.byNode = null;
  }

  of(kind, at) { return this.kinds[kind].get(at); }

  // How many parts have each cause.
  counts() {
    const found = {};
    for (const map of Object.values(this.kinds)) {
      for (const { causes } of map.values()) for (const cause of causes) found[cause] = (found[cause] || 0) + 1;
    }
    return found;
  }

  // The marks of a node's crossbar: crosspoints as [offset, causes] in order, wires as [position, whether a line, causes].
  at(node) {
    this.byNode ??= this.sorted();
    return this.byNode[node.number];
  }

  sorted() {
    const { machine } = this, byNode = machine.nodes.map(() => ({ crosses: [], wires: [], tables: [] }));
    for (const [cross, { causes }] of this.kinds.cross) {
      const node = machine.nodeOfCross(cross);
      byNode[node.number].crosses.push([cross - node.firstCross, causes]);
    }
    for (const [wire, { causes }] of this.kinds.wire) {
      for (const node of machine.nodesWith(wire)) {
        const position = machine.tapPosition(node, wire), isLine = position < 0;
        byNode[node.number].wires.push([isLine ? wire - node.firstLine : position, isLine, causes]);
      }
    }
    for (const [table, { causes }] of this.kinds.table) byNode[machine.nodeOfTable(table).number].tables.push([table, causes]);
    for (const { crosses } of byNode) crosses.sort((one, other) => one[0] - other[0]);
    return byNode;
  }
}
