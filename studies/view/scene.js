// What there is to see on a machine: faults, a list of defects, and an image with its nets.

// The numbers of a list that was sent as base64 of differences, seven bits to a byte, the lowest first.
function numbersOf(text) {
  const bytes = atob(text || ""), found = [];
  let last = 0, value = 0, scale = 1;
  for (let k = 0; k < bytes.length; k++) {
    const byte = bytes.charCodeAt(k);
    value += (byte & 127) * scale;
    scale *= 128;
    if (byte < 128) {
      found.push(last += value);
      value = 0;
      scale = 1;
    }
  }
  return found;
}

// Sets of numbers that are joined; the least of a set stands for it.
class Groups {
  constructor(count) {
    this.above = new Int32Array(count);
    for (let k = 0; k < count; k++) this.above[k] = k;
  }

  find(at) {
    const above = this.above;
    while (above[at] !== at) at = above[at] = above[above[at]];
    return at;
  }

  join(one, other) {
    one = this.find(one);
    other = this.find(other);
    if (one < other) this.above[other] = one;
    else this.above[one] = other;
  }
}

const CELLS = 64;

class Faults {
  constructor(sent) {
    const given = sent || {};
    this.open = new Set(numbersOf(given.open));
    this.closed = new Set(numbersOf(given.closed));
    this.stuck = new Map([...numbersOf(given.stuck0).map(wire => [wire, 0]), ...numbersOf(given.stuck1).map(wire => [wire, 1])]);
    this.bridges = given.bridge || [];
    this.cells = new Map((given.cell || []).map(([table, address, value]) => [table * CELLS + address, value]));
    this.registers = new Map(given.register || []);
  }

  // Every fault as [kind, number, words].
  *each() {
    for (const cross of this.open) yield ["open", cross, "never conducts"];
    for (const cross of this.closed) yield ["closed", cross, "always conducts"];
    for (const [wire, value] of this.stuck) yield [`stuck${value}`, wire, `stuck at ${value}`];
    for (const [key, value] of this.cells) yield ["cell", Math.floor(key / CELLS), `cell ${key % CELLS} always gives ${value}`];
    for (const [table, value] of this.registers) yield ["register", table, `its register always gives ${value}`];
  }

  // The faults without those of a part.
  without(kind, at) {
    const rest = Object.assign(Object.create(Faults.prototype), this);
    const keep = (map, test) => new Map([...map].filter(([key]) => test(key)));
    if (kind === "cross") {
      rest.open = new Set([...this.open].filter(cross => cross !== at));
      rest.closed = new Set([...this.closed].filter(cross => cross !== at));
    }
    if (kind === "wire") {
      rest.stuck = keep(this.stuck, wire => wire !== at);
      rest.bridges = this.bridges.filter(pair => !pair.includes(at));
    }
    if (kind === "table") {
      rest.cells = keep(this.cells, key => Math.floor(key / CELLS) !== at);
      rest.registers = keep(this.registers, table => table !== at);
    }
    return rest;
  }
}

// A list of defects. Of crosspoints is sent what differs from the faults: sound ones on the list, faulty ones that it leaves free.
class Listed {
  constructor(sent, machine, faults) {
    this.machine = machine;
    this.wires = new Set(numbersOf(sent.wire));
    this.tables = new Set(numbersOf(sent.table));
    this.crosses = new Set(numbersOf(sent.more));
    const missed = new Set(numbersOf(sent.missed));
    for (const set of [faults.open, faults.closed]) {
      for (const cross of set) if (!missed.has(cross) && this.hasFreeWires("cross", cross)) this.crosses.add(cross);
    }
  }

  has(kind, at) { return (kind === "wire" ? this.wires : kind === "cross" ? this.crosses : this.tables).has(at); }

  hasFreeWires(kind, at) {
    if (kind === "cross") return this.machine.ends(at).every(wire => !this.wires.has(wire));
    return kind !== "table" || PINS.every((_, pin) => !this.wires.has(this.machine.pinOf(at, pin)));
  }

  isFree(kind, at) { return !this.has(kind, at) && this.hasFreeWires(kind, at); }
}

class Image {
  constructor(sent) {
    this.ticks = sent.ticks;
    this.inputs = sent.inputs;
    this.outputs = sent.outputs;
    this.closed = numbersOf(sent.closed);
    this.tables = new Map();
    const bytes = atob(sent.settings), numbers = numbersOf(sent.tables);
    numbers.forEach((table, k) => {
      const setting = Array.from(bytes.slice(9 * k, 9 * k + 9), letter => letter.charCodeAt(0));
      this.tables.set(table, { latched: (setting[0] & 1) === 1, initial: setting[0] >> 1, bytes: setting });
    });
  }

  // The cell of a table at an address: the first of eight bytes has the highest.
  cell(table, address) { return this.tables.get(table).bytes[8 - (address >> 3)] >> (address & 7) & 1; }
}

let scenesMade = 0;

class Scene {
  constructor(machine, sent, names) {
    this.machine = machine;
    this.key = scenesMade++;
    this.name = sent.name;
    this.names = names;
    this.faults = new Faults(sent.faults);
    this.hasFaults = Boolean(sent.faults);
    this.list = sent.list ? new Listed(sent.list, machine, this.faults) : null;
    this.image = sent.image ? new Image(sent.image) : null;
    this.counted = sent.counted || {};  // by node, for crossbars whose crosspoints were left out
    this.nets = [];
    this.netOf = new Int32Array(this.image ? machine.wires : 0).fill(-1);
    if (this.image) this.findNets();
    this.marks = new Marks(machine);
    this.findMarks();
    this.findNeighbours();
  }

  // The wires of nets in a node's crossbar, as [position, whether a line, wire].
  usedIn(node) {
    this.used ??= this.sortedByNode();
    return this.used[node.number].wires;
  }

  // The closed crosspoints of a node.
  closedIn(node) {
    this.used ??= this.sortedByNode();
    return this.used[node.number].crosses;
  }

  tablesOnIn(node) {
    this.used ??= this.sortedByNode();
    return this.used[node.number].tables;
  }

  sortedByNode() {
    const { machine } = this, byNode = machine.nodes.map(() => ({ wires: [], crosses: [], tables: 0 }));
    for (const table of this.image?.tables.keys() ?? []) byNode[machine.nodeOfTable(table).number].tables++;
    for (const net of this.nets) {
      for (const wire of net.wires) {
        for (const node of machine.nodesWith(wire)) {
          const position = machine.tapPosition(node, wire), isLine = position < 0;
          byNode[node.number].wires.push([isLine ? wire - node.firstLine : position, isLine, wire]);
        }
      }
      for (const cross of net.crosses) byNode[machine.nodeOfCross(cross).number].crosses.push(cross);
    }
    return byNode;
  }

  // Nets are the groups of wires that closed crosspoints join, numbered by their lowest wires.
  findNets() {
    const { machine, image } = this, groups = new Groups(machine.wires), ends = image.closed.map(cross => machine.ends(cross));
    for (const [tap, line] of ends) groups.join(tap, line);
    const wires = [...new Set(ends.flat())].sort((one, other) => one - other), byRoot = new Map();
    for (const wire of wires) {
      const root = groups.find(wire);
      if (!byRoot.has(root)) {
        byRoot.set(root, this.nets.length);
        this.nets.push({ number: this.nets.length, wires: [], crosses: [], readers: [], inputs: [], outputs: [], driver: -1, design: 0 });
      }
      this.netOf[wire] = byRoot.get(root);
      this.nets[byRoot.get(root)].wires.push(wire);
    }
    ends.forEach(([tap], k) => this.nets[this.netOf[tap]].crosses.push(image.closed[k]));
    this.findTerminals();
    this.nets.forEach(net => { net.name = this.netName(net); });
    if (this.names.split) this.tellDesigns();
  }

  findTerminals() {
    const { image, machine } = this, net = wire => this.nets[this.netOf[wire]];
    image.inputs.forEach((pin, k) => net(pin)?.inputs.push(k));
    image.outputs.forEach((pin, k) => net(pin)?.outputs.push(k));
    for (const table of image.tables.keys()) {
      for (let pin = 0; pin < OUTPUT_PIN; pin++) net(machine.pinOf(table, pin))?.readers.push([table, pin]);
      const driven = net(machine.pinOf(table, OUTPUT_PIN));
      if (driven) driven.driver = table;
    }
  }

  netName(net) {
    const { inputs, outputs } = this.names;
    const pins = [...net.outputs.map(k => outputs[k] ?? `output ${k}`), ...net.inputs.map(k => inputs[k] ?? `input ${k}`)];
    net.also = pins;
    return pins[0] ?? (net.driver >= 0 ? this.machine.tableName(net.driver) : this.machine.wireName(net.wires[0]));
  }

  // Which of two designs a net is of: what tables tie together, by the pins of the one or the other.
  tellDesigns() {
    const groups = new Groups(this.nets.length), { machine, image, names } = this, second = new Set();
    for (const table of image.tables.keys()) {
      const nets = PINS.map((_, pin) => this.netOf[machine.pinOf(table, pin)]).filter(number => number >= 0);
      for (const number of nets) groups.join(number, nets[0]);
    }
    image.inputs.forEach((pin, k) => { if (k >= names.split[0] && this.netOf[pin] >= 0) second.add(groups.find(this.netOf[pin])); });
    image.outputs.forEach((pin, k) => { if (k >= names.split[1] && this.netOf[pin] >= 0) second.add(groups.find(this.netOf[pin])); });
    for (const net of this.nets) net.design = second.has(groups.find(net.number)) ? 1 : 0;
  }

  findMarks() {
    const { marks, faults, list } = this, kinds = { open: "cross", closed: "cross", cell: "table", register: "table" };
    for (const [cause, at, words] of faults.each()) {
      const kind = kinds[cause] || "wire";
      marks.add(kind, at, cause, `fault: ${words}`);
      if (list && list.isFree(kind, at)) marks.add(kind, at, "missed", "not on the list");
    }
    for (const [one, other] of faults.bridges) {
      marks.add("wire", one, "bridge", `fault: bridged to ${this.machine.wireName(other)}`);
      marks.add("wire", other, "bridge", `fault: bridged to ${this.machine.wireName(one)}`);
      if (list && list.isFree("wire", one) && list.isFree("wire", other)) marks.add("wire", one, "missed", "both ends are free");
    }
    if (!list) return;
    const shorted = this.hasFaults ? this.shortedWires() : new Set();
    const unknown = this.hasFaults ? "thrown" : "listed";
    for (const wire of list.wires) if (!marks.of("wire", wire)) marks.add("wire", wire, shorted.has(wire) ? "short" : unknown);
    for (const cross of list.crosses) if (!marks.of("cross", cross)) marks.add("cross", cross, unknown);
    for (const table of list.tables) if (!marks.of("table", table)) marks.add("table", table, unknown);
  }

  shortedWires() {
    const found = new Set(this.faults.bridges.flat());
    for (const cross of this.faults.closed) for (const wire of this.machine.ends(cross)) found.add(wire);
    return found;
  }

  // Neighbours of each wire over faults that join wires, with the words of the fault.
  findNeighbours() {
    this.neighbours = new Map();
    const { machine, faults } = this;
    const add = (one, other, by) => {
      for (const [from, to] of [[one, other], [other, one]]) {
        if (!this.neighbours.has(from)) this.neighbours.set(from, []);
        this.neighbours.get(from).push([to, by]);
      }
    };
    for (const cross of faults.closed) add(...machine.ends(cross), `closed ${machine.crossName(cross)}`);
    for (const [one, other] of faults.bridges) add(one, other, `bridge ${machine.wireName(one)} ${machine.wireName(other)}`);
  }

  // The shortest way over faults from a wire to one that is stuck or free: [that wire, the faults on the way], or null.
  wayOut(wire) {
    const ways = new Map([[wire, []]]), due = [wire], { faults, list } = this;
    let nearest = null;
    for (const at of due) {
      for (const [other, by] of this.neighbours.get(at) || []) {
        if (ways.has(other)) continue;
        ways.set(other, [...ways.get(at), by]);
        due.push(other);
        nearest ??= [other, ways.get(other)];
        if (faults.stuck.has(other) || list && !list.wires.has(other)) return [other, ways.get(other)];
      }
    }
    return nearest;
  }

  // Why a wire is listed, in a sentence; by the faults, and not by what a diagnosis may have thought.
  whyListed(wire) {
    const { machine, faults, list } = this;
    if (faults.stuck.has(wire)) return `It is listed since it is stuck at ${faults.stuck.get(wire)}.`;
    const way = this.wayOut(wire);
    if (way) {
      const [end, by] = way, name = machine.wireName(end);
      const what = faults.stuck.has(end) ? `which is stuck at ${faults.stuck.get(end)}`
        : list.wires.has(end) ? "which is listed too" : "which stays free";
      return `It is listed since it is one with ${name}, ${what}, by ${by.join(", then ")}.`;
    }
    const along = machine.along(wire), isGood = cross => !faults.open.has(cross) && !faults.closed.has(cross)
      && machine.ends(cross).every(other => other === wire || !list.wires.has(other));
    const good = along.filter(isGood).length;
    return `It is sound itself. ${good} of its ${along.length} crosspoints are sound and lead to a free wire; `
      + "so it was listed by hand, or no two good ways lead to it.";
  }
}

// Two scenes as one: what one of them has alone, and what both have. Of images it compares what is closed and switched on, else the lists.
class Difference extends Scene {
  constructor(first, second) {
    super(first.machine, { name: "difference" }, first.names);
    const sides = [first, second].map(scene => scene.image ? usedParts(scene.image) : listedParts(scene.list));
    for (const kind of ["wire", "cross", "table"]) {
      const [one, other] = sides.map(side => side[kind]);
      for (const at of one) this.marks.add(kind, at, other.has(at) ? "both" : "gone");
      for (const at of other) if (!one.has(at)) this.marks.add(kind, at, "come");
    }
    this.words = sidesInWords(first, second);
  }
}

const usedParts = image => ({ wire: new Set(), cross: new Set(image.closed), table: new Set(image.tables.keys()) });

const listedParts = list => ({ wire: list?.wires ?? new Set(), cross: list?.crosses ?? new Set(), table: list?.tables ?? new Set() });

// What moved between two images, or came onto a list.
function sidesInWords(first, second) {
  if (!first.image || !second.image) return "";
  const spelled = scene => new Set(scene.nets.map(net => net.crosses.join(" "))), before = spelled(first);
  const moved = second.nets.filter(net => !before.has(net.crosses.join(" "))).length;
  const pins = scene => [...scene.image.inputs, ...scene.image.outputs];
  const movedPins = pins(first).filter((pin, k) => pin !== pins(second)[k]).length;
  return `${moved} of ${second.nets.length} nets lie otherwise, ${movedPins} pins moved.`;
}

// How often each part is lost among several sets of faults, or used by several images.
const OVERLAYS = {
  lost: { causes: ["seldom", "often", "mostly"], of: "sets of faults", parts: scene => scene.marks.kinds },
  used: {
    causes: ["once", "several", "most"],
    of: "images",
    parts: scene => ({ ...usedParts(scene.image), wire: new Set(scene.nets.flatMap(net => net.wires)) }),
  },
};

class Overlay extends Scene {
  constructor(machine, scenes, names, what) {
    super(machine, { name: `all ${OVERLAYS[what].of}` }, names);
    const counts = { wire: new Map(), cross: new Map(), table: new Map() }, { causes, of, parts } = OVERLAYS[what];
    for (const found of scenes.map(parts)) {
      for (const kind in counts) for (const at of found[kind].keys()) counts[kind].set(at, (counts[kind].get(at) || 0) + 1);
    }
    for (const kind in counts) {
      for (const [at, count] of counts[kind]) {
        const cause = causes[count === 1 ? 0 : 2 * count < scenes.length ? 1 : 2];
        this.marks.add(kind, at, cause, `${what} in ${count} of ${scenes.length} ${of}`);
      }
    }
  }
}
