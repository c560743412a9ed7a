// What is shown and chosen: scenes, the run in them, the part, the cycle; and what a search means.

// Words that stand before names in faults, lists and refusals.
const LEADING = /^(refused|noroom|doubt|wire|cross|table|open|closed|stuck[01]|cell|register|bridge)$/;
const NAV_HEIGHT = 46;  // is kept free above and below what the picture goes to

class Viewer {
  constructor(data) {
    this.data = data;
    this.machine = new Machine(data.counts);
    measure(this.machine.root);
    place(this.machine.root, 0, 0);
    this.names = { inputs: data.inputs, outputs: data.outputs, split: data.split, of: data.copies ? "copy" : "design" };
    this.scenes = data.scenes.map(sent => new Scene(this.machine, sent, this.names));
    this.runScenes = new Map();
    this.state = { selection: null, hidden: new Set(), showsValues: false, cycle: 0, tick: -1, show: "0", values: null, step: 0,
      wanting: data.refusal?.nets ?? [] };
    this.vectors = [...data.vectors];
    this.off = [];
    this.isChanged = false;
    this.scene = this.scenes[0];
    this.shown = [this.scene];
    this.painter = new Painter(document.getElementById("picture"), this.machine);
    this.words = new Words(this);
    this.waves = new Waves(this);
    this.isDue = false;
  }

  // Which scenes are painted, and which one the panels speak of: "0", "1", "both", "difference", "run 3", "overlay", "used".
  show(word) {
    const run = /^run ([0-9]+)$/.exec(word), { scenes } = this;
    if (word === "both") this.shown = scenes.slice(0, 2);
    else if (word === "difference") this.shown = [this.difference ??= new Difference(scenes[0], scenes[1])];
    else if (word === "overlay") this.shown = [this.overlay ??= this.overlaid("lost")];
    else if (word === "used" && scenes.every(({ image }) => image)) this.shown = [this.used ??= this.overlaid("used")];
    else if (run && this.data.study?.runs[run[1]]) this.shown = [this.runScene(Number(run[1]))];
    else this.shown = [scenes[word] ?? scenes[0]];
    this.state.show = word;
    this.scene = this.shown[word === "both" ? 1 : 0];
    if (this.state.selection?.kind === "net" && !this.scene.nets[this.state.selection.at]) this.state.selection = null;
    this.painter.forget();
    this.off = [];
    this.simulate(0);
  }

  // All sets of faults together, those of a study's runs or of the files that were given; or what all images use.
  overlaid(what) {
    const { study } = this.data, scenes = study ? study.runs.map((_, k) => this.runScene(k)) : this.scenes;
    return new Overlay(this.machine, what === "used" ? this.scenes : scenes, this.names, what);
  }

  // The machine of a run of a study, made when it is looked at.
  runScene(number) {
    if (!this.runScenes.has(number)) this.runScenes.set(number, new Scene(this.machine, this.data.study.runs[number], this.names));
    return this.runScenes.get(number);
  }

  // Runs the image on the machine as it is and on a sound one; keeps a window of cycles from `first` on.
  simulate(first) {
    const { scene, vectors, state } = this;
    this.run = this.sound = this.differs = state.values = null;
    if (scene.image && !this.data.isPartial && vectors.length) {
      const room = Math.max(8, Math.min(WINDOW, Math.floor(3e7 / (scene.netOf.length + 1))));
      const faults = this.off.reduce((rest, { kind, at }) => rest.without(kind, at), scene.faults);
      this.run = new Run(scene, faults, vectors, first, room);
      this.sound = new Run(scene, new Faults(), vectors, first, room);
      this.differs = differences(scene, this.run, this.sound);
      this.setCycle(Math.min(state.cycle, vectors.length - 1));
    } else this.refresh();
  }

  setCycle(cycle) {
    const { run, state, vectors } = this;
    if (!run || cycle < 0 || cycle >= vectors.length) return;
    state.cycle = cycle;
    state.tick = -1;
    if (cycle < run.first || cycle >= run.first + run.levels.length) {
      this.simulate(Math.max(0, Math.min(cycle - run.levels.length / 2, vectors.length - run.levels.length) | 0));
      return;
    }
    state.values = { run, sound: this.sound, cycle };
    this.refresh();
  }

  // The state after so many ticks of the cycle; -1 is the settled one.
  setTick(tick) {
    const { state, scene, vectors, run } = this;
    if (!run || tick > scene.image.ticks) return;
    if (tick < 0) return this.setCycle(state.cycle);
    state.tick = tick;
    const faults = this.off.reduce((rest, { kind, at }) => rest.without(kind, at), scene.faults);
    const [now, sound] = [faults, new Faults()].map(those => runToTick(scene, those, vectors, state.cycle, tick));
    state.values = { run: now, sound, cycle: state.cycle };
    this.refresh();
  }

  stepTick(step) {
    const { state, scene, run } = this;
    if (!run) return;
    const { ticks } = scene.image, next = state.tick < 0 ? (step > 0 ? 0 : ticks - 1) : Math.max(0, state.tick + step);
    this.setTick(next > ticks ? -1 : next);
  }

  // Of two copies both are driven alike.
  turnInput(input, cycle) {
    const bits = [...this.vectors[cycle]], half = this.data.copies ? this.data.split[0] : 0;
    for (const at of half ? [input % half, input % half + half] : [input]) bits[at] = bits[at] === "1" ? "0" : "1";
    this.vectors[cycle] = bits.join("");
    this.isChanged = true;
    this.state.cycle = cycle;
    this.simulate(this.run.first);
  }

  turnFault(kind, at) {
    const known = this.off.findIndex(part => part.kind === kind && part.at === at);
    if (known < 0) this.off.push({ kind, at });
    else this.off.splice(known, 1);
    this.simulate(this.run.first);
  }

  turnCause(name) {
    const { hidden } = this.state;
    if (!hidden.delete(name)) hidden.add(name);
    this.painter.forget();
    this.refresh();
  }

  chosenNet() {
    const { selection } = this.state;
    if (selection?.kind === "net") return selection.at;
    return selection?.kind === "wire" ? this.scene.netOf[selection.at] ?? -1 : -1;
  }

  select(kind, at, goesThere) {
    this.state.selection = { kind, at };
    // A net that wants a line is seen in the crossbar that has none.
    const place = kind === "wanting" ? ["crossbar", this.machine.byName.get(this.data.refusal.node).number] : [kind, at];
    if (goesThere) this.goTo(areaOf(this.machine, this.scene, ...place), kind);
    this.refresh();
  }

  // The chosen part or net, as a search finds it.
  chosenName() {
    const { selection } = this.state;
    if (!selection) return "";
    if (selection.kind === "wanting") return this.data.refusal.node;
    return selection.kind === "net" ? this.scene.nets[selection.at].name : this.machine.partName(selection.kind, selection.at);
  }

  unselect() {
    this.state.selection = null;
    this.refresh();
  }

  // Brings an area into sight: a node or net whole, a small part from as near as its name can be read.
  goTo(area, kind) {
    const { painter } = this, width = painter.width / this.shown.length, height = painter.height - 2 * NAV_HEIGHT;
    const fits = Math.min(width / (area.width * 1.04), height / area.height);
    const isPart = kind === "wire" || kind === "cross" || kind === "table";
    const scale = Math.min(40, isPart ? Math.max(9, Math.min(fits, 14)) : fits);
    painter.view = { x: area.x + area.width / 2 - width / scale / 2, y: area.y + area.height / 2 - painter.height / scale / 2, scale };
  }

  zoom(factor, x, y) {
    const { view } = this.painter, scale = Math.min(60, Math.max(0.01, view.scale * factor));
    this.painter.view = { x: view.x + x / view.scale - x / scale, y: view.y + y / view.scale - y / scale, scale };
    this.schedule();
  }

  pan(x, y) {
    const { view } = this.painter;
    this.painter.view = { ...view, x: view.x + x / view.scale, y: view.y + y / view.scale };
    this.schedule();
  }

  // What stands at a point of the picture, as [kind, number].
  partAt(x, y) {
    const { machine, painter, scene } = this, { view } = painter, pane = painter.width / this.shown.length;
    const across = view.x + x % pane / view.scale, down = view.y + y / view.scale, node = nodeAt(machine.root, across, down);
    const line = Math.floor(across - node.left), tap = Math.floor(down - node.top);
    if (view.scale < 2 || tap < 0 || tap >= node.taps) return tap < 0 && line >= 0 && line < node.lines && view.scale >= 2
      ? ["wire", node.firstLine + line] : ["node", node.number];
    if (line < 0) return ["wire", machine.tapWire(node, tap)];
    if (line < node.lines) return this.partInCrossbar(node, tap, line);
    const table = Math.floor((tap - node.ports) / PINS_OF_TABLE);
    const isTable = line < node.lines + TABLE_WIDTH && node.tables && tap >= node.ports;
    return isTable ? ["table", node.firstTable + table] : ["node", node.number];
  }

  // A crosspoint where one is marked or closed, else the wire of a net or with a mark, else the crosspoint.
  partInCrossbar(node, tap, line) {
    const { machine, scene } = this, cross = node.firstCross + tap * node.lines + line;
    if (scene.marks.of("cross", cross) || scene.closedIn(node).includes(cross)) return ["cross", cross];
    const wires = [node.firstLine + line, machine.tapWire(node, tap)];
    const wire = wires.find(at => scene.netOf[at] >= 0) ?? wires.find(at => scene.marks.of("wire", at));
    return wire === undefined ? ["cross", cross] : ["wire", wire];
  }

  // What words mean: a part as the program writes it, a net by its name, or a line of a refusal. Null if nothing.
  meaning(words) {
    const text = words.trim(), { machine, scene } = this;
    const net = scene.nets.find(({ name, also }) => name === text || also.includes(text));
    if (net) return ["net", net.number];
    const rest = text.split(/\s+/).filter(word => !LEADING.test(word));
    if (/^refused/.test(text)) return machine.part(rest[1] ?? "");
    const [first, second] = rest.slice(0, 2).map(name => machine.part(name));
    if (first?.[0] === "wire" && second?.[0] === "wire") {
      const cross = machine.cross(first[1], second[1]);
      if (cross >= 0) return ["cross", cross];
    }
    return first ?? null;
  }

  find(words) {
    const found = this.meaning(words);
    if (found) this.select(found[0], found[1], true);
    return found !== null;
  }

  // A step of the walk: goes to its place, and to its cycle if it has one.
  goToStep(step) {
    const { walk } = this.data, { state } = this;
    if (!walk[step]) return;
    state.step = step;
    this.find(walk[step].place);
    state.showsValues = document.getElementById("values").checked = walk[step].cycle !== null;
    if (walk[step].cycle !== null) this.setCycle(walk[step].cycle);
    this.refresh();
  }

  // Panels and picture anew, once for all changes of one moment.
  refresh() {
    this.panelsDue = true;
    this.schedule();
  }

  schedule() {
    if (this.isDue) return;
    this.isDue = true;
    requestAnimationFrame(() => this.paintNow());
  }

  paintNow() {
    this.isDue = false;
    this.painter.paint(this.shown, this.state);
    if (this.panelsDue) this.panels();
    this.panelsDue = false;
    this.onPainted();
  }

  panels() {
    const { words } = this, set = (name, html) => { document.getElementById(name).innerHTML = html; };
    set("summary", words.summary());
    set("walk", words.walk());
    set("causes", words.causes());
    set("selected", words.selection());
    set("nets", words.nets());
    set("study", words.study());
    for (const button of document.querySelectorAll("#scenes [data-show]")) {
      button.setAttribute("aria-pressed", button.dataset.show === this.state.show);
    }
    this.waves.paint();
  }
}
