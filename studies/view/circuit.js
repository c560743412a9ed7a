// The simulated machine (docs/FORMATS.md, "What a machine reads"). Wires that are joined are one group with one value; a table is asked
// anew only when what it reads has changed, so a cycle costs what happens in it.

class Circuit {
  constructor(machine, image, faults) {
    this.machine = machine;
    this.image = image;
    this.groups = new Groups(machine.wires);
    for (const cross of image.closed) if (!faults.open.has(cross)) this.groups.join(...machine.ends(cross));
    for (const cross of faults.closed) this.groups.join(...machine.ends(cross));
    for (const [one, other] of faults.bridges) this.groups.join(one, other);
    this.stuck = new Map();
    for (const [wire, value] of faults.stuck) {
      const group = this.groups.find(wire);
      this.stuck.set(group, Math.min(value, this.stuck.get(group) ?? 1));  // 0 wins
    }
    this.setTables(faults);
    this.inputs = image.inputs.map(pin => this.groups.find(pin));
    this.outputs = image.outputs.map(pin => this.groups.find(pin));
  }

  setTables(faults) {
    const { machine, image } = this;
    this.tables = [...image.tables.keys()];
    this.place = new Map(this.tables.map((table, k) => [table, k]));
    this.readers = new Map();
    this.driven = this.tables.map(table => this.groups.find(machine.pinOf(table, OUTPUT_PIN)));
    this.latched = this.tables.map(table => image.tables.get(table).latched);
    this.held = this.tables.map((table, k) => this.latched[k] ? faults.registers.get(table) : undefined);
    this.cells = this.tables.map(table => Uint8Array.from({ length: CELLS }, (_, address) =>
      faults.cells.get(table * CELLS + address) ?? image.cell(table, address)));
    this.tables.forEach((table, k) => {
      for (let pin = 0; pin < OUTPUT_PIN; pin++) {
        const group = this.groups.find(machine.pinOf(table, pin));
        if (!this.readers.has(group)) this.readers.set(group, []);
        this.readers.get(group).push([k, 1 << pin]);
      }
    });
  }

  // As after a load: each table gives its initial bit, and all pins are driven 1, which is released.
  reset() {
    this.zeros = new Int32Array(this.machine.wires);  // how many drive 0 on a group
    this.gives = Uint8Array.from(this.tables, (table, k) => this.held[k] ?? this.image.tables.get(table).initial);
    this.bits = new Uint8Array(this.inputs.length).fill(1);
    this.driven.forEach((group, k) => { if (!this.gives[k]) this.zeros[group]++; });
    this.address = new Uint8Array(this.tables.length);
    for (const [group, readers] of this.readers) if (this.level(group)) for (const [k, bit] of readers) this.address[k] |= bit;
    this.due = new Set(this.tables.keys());
  }

  level(group) { return this.stuck.get(group) ?? (this.zeros[group] ? 0 : 1); }

  read(wire) { return this.level(this.groups.find(wire)); }

  // One more or one less drives 0 on a group.
  drive(group, change) {
    const before = this.level(group);
    this.zeros[group] += change;
    if (this.level(group) === before) return;
    for (const [k, bit] of this.readers.get(group) || []) {
      this.address[k] ^= bit;
      this.due.add(k);
    }
  }

  setTable(k, value) {
    if (this.gives[k] === value) return;
    this.gives[k] = value;
    this.drive(this.driven[k], value ? -1 : 1);
  }

  setInputs(bits) {
    this.inputs.forEach((group, k) => {
      if (this.bits[k] === bits[k]) return;
      this.bits[k] = bits[k];
      this.drive(group, bits[k] ? -1 : 1);
    });
  }

  // All combinational tables at once; whether there was any to ask.
  tick() {
    const asked = [...this.due].filter(k => !this.latched[k]), values = asked.map(k => this.cells[k][this.address[k]]);
    this.due.clear();
    asked.forEach((k, at) => this.setTable(k, values[at]));
    return asked.length > 0;
  }

  // Drives the inputs and makes the ticks of a cycle, or the first of them.
  settle(vector, ticks = this.image.ticks) {
    this.setInputs(Array.from(vector === "." ? "" : vector, Number));
    let made = 0;
    while (made < ticks && this.tick()) made++;
  }

  clock() {
    const asked = [...this.tables.keys()].filter(k => this.latched[k]);
    const values = asked.map(k => this.held[k] ?? this.cells[k][this.address[k]]);
    asked.forEach((k, at) => this.setTable(k, values[at]));
  }

  row() { return this.outputs.map(group => this.level(group)).join("") || "."; }
}

// A run: the rows of all cycles, and of a window of them what wires and tables have.
class Run {
  constructor(scene, faults, vectors, first, count) {
    this.circuit = new Circuit(scene.machine, scene.image, faults);
    this.first = first;
    this.rows = [];
    this.levels = [];
    this.given = [];
    this.wires = scene.nets.flatMap(net => net.wires);
    this.place = new Map(this.wires.map((wire, k) => [wire, k]));
    this.groups = this.wires.map(wire => this.circuit.groups.find(wire));
    this.circuit.reset();
    vectors.forEach((vector, cycle) => this.step(vector, cycle >= first && cycle < first + count));
  }

  step(vector, isKept) {
    const { circuit } = this;
    circuit.settle(vector);
    this.rows.push(circuit.row());
    if (isKept) this.keep();
    circuit.clock();
  }

  keep() {
    this.levels.push(Uint8Array.from(this.groups, group => this.circuit.level(group)));
    this.given.push(this.circuit.gives.slice());
  }

  // What a wire of a net, or a table, has in a cycle of the window; else undefined.
  wire(wire, cycle) { return this.levels[cycle - this.first]?.[this.place.get(wire)]; }

  table(table, cycle) { return this.given[cycle - this.first]?.[this.circuit.place.get(table)]; }
}

// The state in a cycle after so many ticks of it, as a run of one kept cycle.
function runToTick(scene, faults, vectors, cycle, ticks) {
  const run = new Run(scene, faults, vectors.slice(0, cycle), cycle, 0);
  run.circuit.settle(vectors[cycle], ticks);
  run.keep();
  return run;
}

// For each net that differs from a sound machine its first cycle in the window, and of the first ones that whose table reads none of them.
function differences(scene, run, sound) {
  const since = new Map(), cycles = run.levels.length;
  for (const net of scene.nets) {
    const places = net.wires.map(wire => run.place.get(wire));
    for (let k = 0; k < cycles && !since.has(net.number); k++) {
      if (places.some(place => run.levels[k][place] !== sound.levels[k][place])) since.set(net.number, k + run.first);
    }
  }
  const least = Math.min(...since.values()), early = [...since].filter(([, cycle]) => cycle === least).map(([number]) => number);
  const reads = number => readsOf(scene, scene.nets[number].driver).filter(other => other !== number);
  const origin = early.find(number => reads(number).every(other => since.get(other) !== least)) ?? early[0];
  return { since, origin, cycle: least };
}

// The nets that a table reads.
function readsOf(scene, table) {
  if (table < 0) return [];
  const nets = PINS.slice(0, OUTPUT_PIN).map((_, pin) => scene.netOf[scene.machine.pinOf(table, pin)]);
  return [...new Set(nets)].filter(number => number >= 0);
}
