"use strict";
// The machine from its twelve counts. Names, numbers and places follow from them by arithmetic, so that a machine of a million wires
// costs no table of names.

const LEVELS = ["root", "module", "chip", "hextant"];
const PINS = ["i0", "i1", "i2", "i3", "i4", "i5", "q"];
const OUTPUT_PIN = 6;
const PINS_OF_TABLE = 7;

// The last place of an ascending list whose value, by `value`, isn't above `wanted`.
function lastNotAbove(list, wanted, value) {
  let low = 0, high = list.length - 1;
  while (low < high) {
    const middle = (low + high + 1) >> 1;
    if (value(list[middle]) <= wanted) low = middle;
    else high = middle - 1;
  }
  return low;
}

class Machine {
  constructor(counts) {
    const [modules, chips, hextants, tables, ...rest] = counts;
    this.counts = counts;
    this.childCounts = [modules, chips, hextants, 0];
    this.portCounts = [rest[7], ...rest.slice(0, 3)];  // the root's pins stand where other nodes have ports
    this.lineCounts = rest.slice(3, 7);
    this.tablesOfHextant = tables;
    this.nodes = [];
    this.wires = this.crosses = this.tables = 0;
    this.root = this.addNode(0, "r", null, 0);
    this.byName = new Map(this.nodes.map(node => [node.name, node]));
    this.hextants = this.nodes.filter(node => node.level === 3);
    for (const node of this.nodes) {
      node.firstCross = this.crosses;
      this.crosses += node.taps * node.lines;
    }
  }

  addNode(level, name, parent, index) {
    const ports = this.portCounts[level], lines = this.lineCounts[level], tables = level === 3 ? this.tablesOfHextant : 0;
    const node = { level, name, parent, index, ports, lines, tables, children: [], number: this.nodes.length };
    node.firstWire = this.wires;
    node.firstLine = node.firstWire + ports;
    node.firstPin = node.firstLine + lines;
    node.firstTable = this.tables;
    this.nodes.push(node);
    this.wires = node.firstPin + PINS_OF_TABLE * tables;
    this.tables += tables;
    for (let k = 0; k < this.childCounts[level]; k++) {
      const own = `${level ? `${name}.` : ""}${"mch"[level]}${k}`;
      node.children.push(this.addNode(level + 1, own, node, k));
    }
    node.taps = ports + PINS_OF_TABLE * tables + node.children.length * (this.portCounts[level + 1] || 0);
    return node;
  }

  nodeOfWire(wire) { return this.nodes[lastNotAbove(this.nodes, wire, node => node.firstWire)]; }

  nodeOfCross(cross) { return this.nodes[lastNotAbove(this.nodes, cross, node => node.firstCross)]; }

  nodeOfTable(table) { return this.hextants[Math.floor(table / this.tablesOfHextant)]; }

  isLine(wire) {
    const node = this.nodeOfWire(wire);
    return wire >= node.firstLine && wire < node.firstPin;
  }

  // The wire at a tap's position in a node's crossbar.
  tapWire(node, position) {
    if (position < node.ports) return node.firstWire + position;
    const behind = position - node.ports;
    if (node.level === 3) return node.firstPin + behind;
    const ports = this.portCounts[node.level + 1];
    return node.children[Math.floor(behind / ports)].firstWire + behind % ports;
  }

  // The position of a wire among a node's taps, or -1.
  tapPosition(node, wire) {
    const owner = this.nodeOfWire(wire);
    if (owner === node) {
      if (wire < node.firstLine) return wire - node.firstWire;
      return wire >= node.firstPin ? node.ports + wire - node.firstPin : -1;
    }
    if (owner.parent !== node || wire >= owner.firstLine) return -1;
    return node.ports + owner.index * owner.ports + wire - owner.firstWire;
  }

  // The nodes in whose crossbars a wire is a tap, or the one in which it is a line.
  nodesWith(wire) {
    const owner = this.nodeOfWire(wire);
    const isPort = owner.level > 0 && wire < owner.firstLine;
    return isPort ? [owner, owner.parent] : [owner];
  }

  // Tap and line of a crosspoint.
  ends(cross) {
    const node = this.nodeOfCross(cross), offset = cross - node.firstCross;
    return [this.tapWire(node, Math.floor(offset / node.lines)), node.firstLine + offset % node.lines];
  }

  // The crosspoint of a tap and a line, or -1.
  cross(tap, line) {
    const node = this.nodeOfWire(line);
    if (line < node.firstLine || line >= node.firstPin) return -1;
    const position = this.tapPosition(node, tap);
    return position < 0 ? -1 : node.firstCross + position * node.lines + line - node.firstLine;
  }

  // The crosspoints of a wire.
  along(wire) {
    const found = [];
    for (const node of this.nodesWith(wire)) {
      const position = this.tapPosition(node, wire);
      if (position < 0) for (let k = 0; k < node.taps; k++) found.push(node.firstCross + k * node.lines + wire - node.firstLine);
      else for (let k = 0; k < node.lines; k++) found.push(node.firstCross + position * node.lines + k);
    }
    return found;
  }

  pinOf(table, pin) {
    const node = this.nodeOfTable(table);
    return node.firstPin + PINS_OF_TABLE * (table - node.firstTable) + pin;
  }

  // The table and the pin that a wire is, or null.
  tablePin(wire) {
    const node = this.nodeOfWire(wire), behind = wire - node.firstPin;
    return behind < 0 ? null : [node.firstTable + Math.floor(behind / PINS_OF_TABLE), behind % PINS_OF_TABLE];
  }

  wireName(wire) {
    const node = this.nodeOfWire(wire);
    if (wire < node.firstLine) return `${node.name}.${node.level ? "o" : "p"}${wire - node.firstWire}`;
    if (wire < node.firstPin) return `${node.name}.l${wire - node.firstLine}`;
    const [table, pin] = this.tablePin(wire);
    return `${this.tableName(table)}.${PINS[pin]}`;
  }

  tableName(table) {
    const node = this.nodeOfTable(table);
    return `${node.name}.t${table - node.firstTable}`;
  }

  crossName(cross) { return this.ends(cross).map(wire => this.wireName(wire)).join(" "); }

  partName(kind, at) {
    return kind === "wire" ? this.wireName(at) : kind === "cross" ? this.crossName(at) : kind === "table" ? this.tableName(at)
      : this.nodes[at].name;
  }

  // The part of one name as [kind, number], or null.
  part(name) {
    if (this.byName.has(name)) return ["node", this.byName.get(name).number];
    const found = /^(.+)\.([polt])(0|[1-9][0-9]*)(?:\.(i[0-5]|q))?$/.exec(name), node = found && this.byName.get(found[1]);
    if (!node) return null;
    const letter = found[2], k = Number(found[3]);
    if (letter === "t") {
      if (k >= node.tables) return null;
      const table = node.firstTable + k;
      return found[4] ? ["wire", this.pinOf(table, PINS.indexOf(found[4]))] : ["table", table];
    }
    if (found[4] || (letter === "p") !== (node.level === 0) && letter !== "l") return null;
    if (letter === "l") return k < node.lines ? ["wire", node.firstLine + k] : null;
    return k < node.ports ? ["wire", node.firstWire + k] : null;
  }
}
