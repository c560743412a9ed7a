// The picture, on one canvas. Below one point a crosspoint it has densities, from one on crosspoints, from six on names.

const NAMES_FROM = 6, SHAPES_FROM = 3, CROSSES_FROM = 1, BITMAPS_FROM = 0.3;
const BLOCK = 8, FULL_SHARE = 0.25;  // a block of 8 x 8 has a cause's full colour where a quarter of it is bad
const BITMAP_ROOM = 16e6;            // so many points are kept as bitmaps
const INK = "#1d2733", FAINT = "#8a94a3", PAPER = "#eceff3", EDGE = "#cdd3dc",
  USED = "#d5e6d8", TABLE_ON = "#4d7ebf", TABLE_OFF = "#dde2ea";
const LEVEL_FILLS = ["#ffffff", "#f4f7fc", "#fbfaf3", "#f6f4fa"];

// Nets are pale and the chosen one is strong; of two designs one has cold hues and the other warm ones.
function netColour(scene, net, isStrong) {
  const turn = net.number * 137.508;
  const hue = !scene.names.split ? turn % 360 : net.design ? 330 + turn % 100 : 130 + turn % 130;
  return isStrong ? `hsl(${hue} 90% 33%)` : `hsl(${hue} 42% 74%)`;
}

class Painter {
  constructor(canvas, machine) {
    this.canvas = canvas;
    this.machine = machine;
    this.context = canvas.getContext("2d");
    this.view = { x: 0, y: 0, scale: 1 };
    this.frames = [];
    this.bitmaps = new Map();
    this.bitmapPoints = 0;
  }

  get width() { return this.canvas.clientWidth; }

  get height() { return this.canvas.clientHeight; }

  forget() {
    this.bitmaps.clear();
    this.bitmapPoints = 0;
  }

  across(x) { return this.pane.left + (x - this.view.x) * this.view.scale; }

  down(y) { return (y - this.view.y) * this.view.scale; }

  // Paints each scene in a pane of its own, all from the same place.
  paint(scenes, state) {
    const start = performance.now(), ratio = window.devicePixelRatio || 1, { canvas, context } = this;
    const [width, height] = [Math.round(this.width * ratio), Math.round(this.height * ratio)];
    if (canvas.width !== width) canvas.width = width;
    if (canvas.height !== height) canvas.height = height;
    context.setTransform(ratio, 0, 0, ratio, 0, 0);
    context.clearRect(0, 0, this.width, this.height);
    this.state = state;
    scenes.forEach((scene, k) => {
      const share = this.width / scenes.length;
      this.pane = { left: k * share, width: share };
      this.scene = scene;
      this.paintPane(k);
    });
    this.frames.push(performance.now() - start);
  }

  paintPane(number) {
    const { context, pane } = this;
    context.save();
    context.beginPath();
    context.rect(pane.left, 0, pane.width, this.height);
    context.clip();
    this.chosen = this.chosenNet();
    this.paintNode(this.machine.root);
    this.paintChosen();
    if (number) this.box(pane.left, 0, 2, this.height, INK);
    context.restore();
  }

  chosenNet() {
    const { selection } = this.state;
    if (!selection || !this.scene.nets.length) return -1;
    if (selection.kind === "net") return selection.at < this.scene.nets.length ? selection.at : -1;
    return selection.kind === "wire" ? this.scene.netOf[selection.at] : -1;
  }

  box(x, y, width, height, colour) {
    this.context.fillStyle = colour;
    this.context.fillRect(x, y, width, height);
  }

  isSeen(x, y, width, height) {
    return x < this.pane.left + this.pane.width && x + width > this.pane.left && y < this.height && y + height > 0;
  }

  paintNode(node) {
    const { context, view } = this, x = this.across(node.x), y = this.down(node.y);
    const width = node.width * view.scale, height = node.height * view.scale;
    if (!this.isSeen(x, y, width, height)) return;
    this.box(x, y, width, height, LEVEL_FILLS[node.level]);
    context.strokeStyle = "#bcc4d0";
    context.lineWidth = 1;
    context.strokeRect(x, y, width, height);
    const size = HEAD * view.scale;
    if (size > 6 && width > 18) this.title(node, x, y, size);
    this.paintCrossbar(node);
    for (const child of node.children) this.paintNode(child);
  }

  title(node, x, y, size) {
    const { context } = this;
    context.fillStyle = INK;
    context.font = `600 ${Math.min(14, size * 0.75)}px system-ui, sans-serif`;
    context.textAlign = "left";
    context.textBaseline = "top";
    context.fillText(node.level ? node.name : "r", x + 3, y + 2);
  }

  paintCrossbar(node) {
    const { scale } = this.view, x = this.across(node.left), y = this.down(node.top);
    const width = node.lines * scale, height = node.taps * scale;
    if (!this.isSeen(x - LABEL * scale, y - HEAD * scale, width + (LABEL + TABLE_WIDTH) * scale, height + HEAD * scale)) return;
    this.box(x - 0.5, y - 0.5, width + 1, height + 1, EDGE);
    this.box(x, y, width, height, PAPER);
    const used = this.scene.usedIn(node), marks = this.scene.marks.at(node), at = { node, x, y, width, height, scale, used, marks };
    if (this.scene.counted[node.name]) this.paintCounted(at);
    if (scale < CROSSES_FROM) {
      if (scale < BITMAPS_FROM) this.paintUsedShare(at);
      else this.paintBitmap(at, "nets", drawNets);
      this.paintDensity(at);
      this.paintWireMarks(at);
    } else {
      this.paintWires(at);
      this.paintWireMarks(at);
      this.paintCrossMarks(at);
      this.paintClosed(at);
    }
    if (node.tables) this.paintTables(at);
    if (scale >= NAMES_FROM) this.paintNames(at);
  }

  // A crossbar whose crosspoints were left out: the share of bad ones in one colour.
  paintCounted({ node, x, y, width, height }) {
    const { context } = this, counted = Object.entries(this.scene.counted[node.name]).filter(([cause]) => !this.state.hidden.has(cause));
    for (const [cause, count] of counted) {
      context.globalAlpha = Math.min(1, count / (node.lines * node.taps) / FULL_SHARE);
      this.box(x, y, width, height, CAUSES[cause].colour);
    }
    context.globalAlpha = 1;
  }

  paintUsedShare({ node, x, y, width, height, used }) {
    const lines = used.filter(([, isLine]) => isLine).length;
    if (lines) this.box(x, y + height * (1 - lines / node.lines), width, height * lines / node.lines, USED);
  }

  // A bitmap of a crossbar, kept until something hides or shows; `draw` fills it.
  bitmap(key, width, height, draw) {
    if (!this.bitmaps.has(key)) {
      if (this.bitmapPoints > BITMAP_ROOM) this.forget();
      const canvas = new OffscreenCanvas(width, height);
      draw(canvas.getContext("2d"));
      this.bitmaps.set(key, canvas);
      this.bitmapPoints += width * height;
    }
    return this.bitmaps.get(key);
  }

  paintBitmap({ node, x, y, width, height, used }, kind, draw) {
    if (!used.length) return;
    const key = `${this.scene.key} ${kind} ${node.number}`;
    const kept = this.bitmap(key, node.lines, node.taps, context => draw(context, this.scene, node, used));
    this.context.imageSmoothingEnabled = true;
    this.context.drawImage(kept, x, y, width, height);
  }

  paintDensity({ node, x, y, scale, marks }) {
    if (!marks.crosses.length) return;
    const columns = Math.ceil(node.lines / BLOCK), rows = Math.ceil(node.taps / BLOCK), key = `${this.scene.key} density ${node.number}`;
    const kept = this.bitmap(key, columns, rows, context => drawDensity(context, node, marks.crosses, this.state.hidden));
    this.context.imageSmoothingEnabled = false;
    this.context.drawImage(kept, x, y, columns * BLOCK * scale, rows * BLOCK * scale);
  }

  // The rectangle of a wire in a crossbar, `thick` across.
  wireBox({ node, x, y, width, height, scale }, position, isLine, thick) {
    const middle = (position + 0.5) * scale - thick / 2;
    return isLine ? [x + middle, y - scale, thick, height + scale] : [x - scale / 2, y + middle, width + scale / 2, thick];
  }

  paintWires(at) {
    const { scene, context } = this, thick = Math.max(1, at.scale * 0.2), { values } = this.state;
    for (const [position, isLine, wire] of at.used) {
      const net = scene.nets[scene.netOf[wire]], spot = this.wireBox(at, position, isLine, thick);
      if (!this.isSeen(...spot)) continue;
      const value = values && values.run.wire(wire, values.cycle);
      if (values && values.sound.wire(wire, values.cycle) !== value) {
        this.box(...this.wireBox(at, position, isLine, Math.max(4, at.scale * 0.8)), "#ffd83d");
      }
      // A 1 is thick and a 0 is thin, besides their colours.
      if (this.state.showsValues && value !== undefined) {
        this.box(...this.wireBox(at, position, isLine, value ? thick * 2 : thick), value ? "#b3261e" : "#2b6cb0");
      } else {
        context.globalAlpha = this.chosen >= 0 && net.number !== this.chosen ? 0.45 : 1;
        this.box(...spot, netColour(scene, net, false));
        context.globalAlpha = 1;
      }
    }
  }

  paintWireMarks(at) {
    const { context } = this;
    for (const [position, isLine, causes] of at.marks.wires) {
      const cause = causes.find(name => !this.state.hidden.has(name));
      if (!cause) continue;
      // Below one point a wire is as thin as it is, so that a few of them don't look like many.
      const thick = at.scale < CROSSES_FROM ? Math.max(0.5, at.scale) : Math.max(1.5, at.scale * 0.34);
      const [x, y, width, height] = this.wireBox(at, position, isLine, thick);
      if (!this.isSeen(x, y, width, height)) continue;
      context.strokeStyle = CAUSES[cause].colour;
      context.lineWidth = thick;
      context.setLineDash(at.scale < CROSSES_FROM ? [] : CAUSES[cause].dash);
      context.beginPath();
      context.moveTo(isLine ? x + thick / 2 : x, isLine ? y : y + thick / 2);
      context.lineTo(isLine ? x + thick / 2 : x + width, isLine ? y + height : y + thick / 2);
      context.stroke();
    }
    context.setLineDash([]);
  }

  // The marks of the rows that are seen; up to three points a crosspoint as squares, from there on as shapes.
  paintCrossMarks({ node, x, y, scale, marks }) {
    const { pane } = this, { crosses } = marks, first = Math.max(0, Math.floor(-y / scale) - 1) * node.lines;
    const last = (Math.ceil((this.height - y) / scale) + 1) * node.lines, from = pane.left - scale, to = pane.left + pane.width + scale;
    const found = new Map();
    for (let k = crosses.length ? lastNotAbove(crosses, first, mark => mark[0]) : 0; k < crosses.length && crosses[k][0] <= last; k++) {
      const [offset, causes] = crosses[k], across = x + (offset % node.lines + 0.5) * scale;
      if (across < from || across > to) continue;
      const down = y + (Math.floor(offset / node.lines) + 0.5) * scale;
      for (const cause of causes) {
        if (this.state.hidden.has(cause)) continue;
        if (!found.has(cause)) found.set(cause, []);
        found.get(cause).push([across, down]);
      }
    }
    for (const [cause, places] of found) this.paintShapes(CAUSES[cause], places, scale);
  }

  paintShapes({ shape, colour }, places, scale) {
    const { context } = this;
    context.fillStyle = context.strokeStyle = colour;
    if (scale < SHAPES_FROM) {
      for (const [x, y] of places) context.fillRect(x - scale / 2, y - scale / 2, scale, scale);
      return;
    }
    context.lineWidth = Math.max(1, scale * 0.16);
    context.beginPath();
    for (const [x, y] of places) SHAPES[shape](context, x, y, scale * 0.36);
    if (shape === "square") context.fill();
    else context.stroke();
  }

  // Closed crosspoints: dots, of the second of two designs diamonds.
  paintClosed({ node, x, y, scale }) {
    const { context, scene } = this, size = Math.max(1, scale * 0.3);
    for (const cross of scene.closedIn(node)) {
      const offset = cross - node.firstCross, across = x + (offset % node.lines + 0.5) * scale;
      const down = y + (Math.floor(offset / node.lines) + 0.5) * scale;
      if (!this.isSeen(across - size, down - size, 2 * size, 2 * size)) continue;
      const net = scene.nets[scene.netOf[node.firstLine + offset % node.lines]];
      context.globalAlpha = this.chosen >= 0 && net.number !== this.chosen ? 0.45 : 1;
      context.fillStyle = netColour(scene, net, true);
      if (scale < SHAPES_FROM) context.fillRect(across - size, down - size, 2 * size, 2 * size);
      else {
        context.beginPath();
        if (net.design) SHAPES.diamond(context, across, down, size * 1.3);
        else context.arc(across, down, size, 0, 7);
        context.fill();
      }
    }
    context.globalAlpha = 1;
  }

  // From afar the tables of a hextant are one bar, as strong as the share of them that is on.
  paintTableShare({ node, x, y, width, height, scale }) {
    const { context, scene } = this, first = node.ports * scale, on = scene.tablesOnIn(node) / node.tables;
    const spot = [x + width + scale * 0.7, y + first, scale * (TABLE_WIDTH - 1), height - first];
    this.box(...spot, TABLE_OFF);
    context.globalAlpha = on;
    if (on) this.box(...spot, TABLE_ON);
    context.globalAlpha = 1;
  }

  paintTables(at) {
    const { node, scale, marks } = at, isFar = scale < BITMAPS_FROM;
    if (isFar) this.paintTableShare(at);
    else for (let k = 0; k < node.tables; k++) this.paintTable(at, node.firstTable + k);
    for (const [table, causes] of marks.tables) {
      const cause = causes.find(name => !this.state.hidden.has(name)), spot = this.tableSpot(at, table);
      if (cause && this.isSeen(...spot)) this.frameTable(spot, CAUSES[cause], scale);
    }
  }

  tableSpot({ node, x, y, width, scale }, table) {
    const top = node.ports + PINS_OF_TABLE * (table - node.firstTable) + 0.3;
    return [x + width + scale * 0.7, y + top * scale, scale * (TABLE_WIDTH - 1), 6.4 * scale];
  }

  paintTable(at, table) {
    const setting = this.scene.image?.tables.get(table), spot = this.tableSpot(at, table);
    if (!this.isSeen(...spot)) return;
    this.box(...spot, setting ? TABLE_ON : TABLE_OFF);
    if (at.scale > SHAPES_FROM && setting) this.tableWords(spot, table, setting, at.scale);
  }

  frameTable([x, y, width, height], { colour, letter }, scale) {
    const { context } = this;
    if (scale < CROSSES_FROM) return this.box(x, y, width, height, colour);
    context.strokeStyle = colour;
    context.lineWidth = Math.max(1.5, scale * 0.5);
    context.strokeRect(x, y, width, height);
    if (scale <= SHAPES_FROM) return;
    this.box(x, y, width, height * 0.32, colour);
    this.word(letter, x + width * 0.5, y + height * 0.17, scale * 1.7, "#ffffff", "700");
  }

  tableWords([x, y, width, height], table, { latched }, scale) {
    const { values } = this.state, value = values?.run.table(table, values.cycle);
    if (value !== undefined) this.word(value, x + width / 2, y + height * 0.52, scale * 2.3, "#ffffff", "700");
    if (latched) this.word("latch", x + width / 2, y + height * 0.86, scale * 1.3, "#ffffff", "400");
  }

  word(text, x, y, size, colour, weight, align = "center") {
    const { context } = this;
    context.font = `${weight} ${size}px system-ui, sans-serif`;
    context.textAlign = align;
    context.textBaseline = "middle";
    context.fillStyle = colour;
    context.fillText(text, x, y);
  }

  paintNames({ node, x, y, scale, marks }) {
    const size = Math.min(12, scale * 0.85), { scene, context } = this, bad = new Map();
    for (const [position, isLine, causes] of marks.wires) bad.set(`${isLine} ${position}`, CAUSES[causes[0]].colour);
    for (let k = 0; k < node.taps; k++) {
      const down = y + (k + 0.5) * scale, wire = this.machine.tapWire(node, k), net = scene.nets[scene.netOf[wire] ?? -1];
      if (down < -9 || down > this.height + 9) continue;
      const words = `${net ? `${shortened(net.name, 16)}  ` : ""}${this.shortName(node, wire)}`;
      const colour = bad.get(`false ${k}`) || (net ? netColour(scene, net, true) : FAINT);
      this.word(words, x - scale / 2 - 3, down, size, colour, "400", "right");
    }
    for (let k = 0; k < node.lines; k++) {
      const across = x + (k + 0.5) * scale, net = scene.nets[scene.netOf[node.firstLine + k] ?? -1];
      if (!this.isSeen(across - 9, y - HEAD * scale, 18, HEAD * scale)) continue;
      context.save();
      context.translate(across, y - scale * 1.2);
      context.rotate(-Math.PI / 2);
      this.word(`l${k}`, 0, 0, size, bad.get(`true ${k}`) || (net ? netColour(scene, net, true) : FAINT), "400", "left");
      context.restore();
    }
  }

  // The name of a tap without its node's.
  shortName(node, wire) {
    const name = this.machine.wireName(wire), parts = name.split(".");
    return name.startsWith(`${node.name}.`) ? name.slice(node.name.length + 1) : parts.slice(-2).join(".");
  }

  // What is selected, above all else.
  paintChosen() {
    const { selection } = this.state, { machine, scene } = this;
    if (!selection) return;
    if (this.chosen >= 0) return this.paintNet(scene.nets[this.chosen]);
    if (selection.kind === "wanting") this.paintWanting(this.state.wanting[selection.at]);
    if (selection.kind === "wire") for (const spot of placesOf(machine, selection.at)) this.halo(spot);
    if (selection.kind === "cross") this.ring(placeOfCross(machine, selection.at));
    if (selection.kind === "table") {
      const node = machine.nodeOfTable(selection.at), top = node.top + node.ports + PINS_OF_TABLE * (selection.at - node.firstTable);
      this.frame(node.left + node.lines + 0.4, top, TABLE_WIDTH - 0.4, PINS_OF_TABLE);
    }
    if (selection.kind === "node") {
      const node = machine.nodes[selection.at];
      this.frame(node.x, node.y, node.width, node.height);
    }
  }

  // A net that has no line: its taps strong, and each line that would serve with a ring at each of its crosspoints there.
  paintWanting({ taps, serving }) {
    const { context, machine } = this, node = machine.nodeOfWire(serving[0] ?? taps[0]);
    context.strokeStyle = "#1d5f3f";
    for (const wire of [...taps, ...serving]) {
      context.lineWidth = taps.includes(wire) ? Math.max(2, this.view.scale * 0.34) : 1;
      const places = placesOf(machine, wire).filter(spot => spot.node === node || !serving.length);
      for (const { x1, y1, x2, y2 } of places) this.line(x1, y1, x2, y2);
    }
    for (const tap of taps) for (const line of serving) this.ring(placeOfCross(machine, machine.cross(tap, line)));
  }

  frame(x, y, width, height) {
    const { context } = this, { scale } = this.view;
    context.strokeStyle = INK;
    context.lineWidth = 2;
    context.strokeRect(this.across(x), this.down(y), width * scale, height * scale);
  }

  // Two lines beside a wire, so that its own colour and dashes stay in sight.
  halo({ x1, y1, x2, y2 }) {
    const { context } = this, beside = Math.max(0.45, 3 / this.view.scale), [across, down] = x1 === x2 ? [beside, 0] : [0, beside];
    context.strokeStyle = INK;
    context.lineWidth = 1.5;
    for (const side of [-1, 1]) this.line(x1 + side * across, y1 + side * down, x2 + side * across, y2 + side * down);
  }

  ring({ x, y }) {
    const { context } = this;
    context.strokeStyle = INK;
    context.lineWidth = 1.5;
    context.beginPath();
    context.arc(this.across(x), this.down(y), Math.max(3, this.view.scale * 0.62), 0, 7);
    context.stroke();
  }

  line(x1, y1, x2, y2) {
    const { context } = this;
    context.beginPath();
    context.moveTo(this.across(x1), this.down(y1));
    context.lineTo(this.across(x2), this.down(y2));
    context.stroke();
  }

  // The chosen net: its wires strong, its crosspoints ringed, and curves that join the two places of each port.
  paintNet(net) {
    const { context, machine, scene, view } = this;
    context.strokeStyle = netColour(scene, net, true);
    for (const wire of net.wires) {
      const places = placesOf(machine, wire);
      context.lineWidth = Math.max(2, view.scale * 0.34);
      for (const { x1, y1, x2, y2 } of places) this.line(x1, y1, x2, y2);
      if (places.length === 2) this.curve(...places);
    }
    for (const cross of net.crosses) this.ringOf(placeOfCross(machine, cross), context.strokeStyle);
  }

  ringOf({ x, y }, colour) {
    const { context } = this;
    context.fillStyle = colour;
    context.beginPath();
    context.arc(this.across(x), this.down(y), Math.max(2.5, this.view.scale * 0.42), 0, 7);
    context.fill();
  }

  curve(own, above) {
    const { context } = this, [x1, y1] = [this.across(above.x2), this.down(above.y2)], [x2, y2] = [this.across(own.x1), this.down(own.y1)];
    context.lineWidth = 1.5;
    context.setLineDash([5, 3]);
    context.beginPath();
    context.moveTo(x1, y1);
    context.bezierCurveTo((x1 + x2) / 2, y1, (x1 + x2) / 2, y2, x2, y2);
    context.stroke();
    context.setLineDash([]);
  }
}

const shortened = (text, most) => text.length > most ? `${text.slice(0, most / 2 - 1)}..${text.slice(1 - most / 2)}` : text;

// The shapes of crosspoints around a middle; they add to a path.
const SHAPES = {
  cross(context, x, y, size) {
    context.moveTo(x - size, y - size);
    context.lineTo(x + size, y + size);
    context.moveTo(x + size, y - size);
    context.lineTo(x - size, y + size);
  },
  plus(context, x, y, size) {
    context.moveTo(x - size * 1.3, y);
    context.lineTo(x + size * 1.3, y);
    context.moveTo(x, y - size * 1.3);
    context.lineTo(x, y + size * 1.3);
  },
  square(context, x, y, size) { context.rect(x - size, y - size, 2 * size, 2 * size); },
  ring(context, x, y, size) {
    context.moveTo(x + size, y);
    context.arc(x, y, size, 0, 2 * Math.PI);
  },
  triangle(context, x, y, size) {
    context.moveTo(x - size, y + size);
    context.lineTo(x + size, y + size);
    context.lineTo(x, y - size);
    context.closePath();
  },
  diamond(context, x, y, size) {
    context.moveTo(x - size, y);
    context.lineTo(x, y - size);
    context.lineTo(x + size, y);
    context.lineTo(x, y + size);
    context.closePath();
  },
};

// One point a crosspoint: the wires of nets, and what is closed.
function drawNets(context, scene, node, used) {
  for (const [position, isLine, wire] of used) {
    context.fillStyle = netColour(scene, scene.nets[scene.netOf[wire]], false);
    if (isLine) context.fillRect(position, 0, 1, node.taps);
    else context.fillRect(0, position, node.lines, 1);
  }
  context.fillStyle = INK;
  for (const cross of scene.closedIn(node)) {
    const offset = cross - node.firstCross;
    context.fillRect(offset % node.lines, Math.floor(offset / node.lines), 1, 1);
  }
}

// One point a block of crosspoints: the colour of the cause that is most frequent in it, as strong as the share of bad ones.
function drawDensity(context, node, crosses, hidden) {
  const columns = Math.ceil(node.lines / BLOCK), blocks = new Map();
  for (const [offset, causes] of crosses) {
    const cause = causes.find(name => !hidden.has(name));
    if (!cause) continue;
    const block = Math.floor(Math.floor(offset / node.lines) / BLOCK) * columns + Math.floor(offset % node.lines / BLOCK);
    if (!blocks.has(block)) blocks.set(block, {});
    blocks.get(block)[cause] = (blocks.get(block)[cause] || 0) + 1;
  }
  for (const [block, counts] of blocks) {
    const sorted = Object.entries(counts).sort((one, other) => other[1] - one[1]);
    const all = sorted.reduce((sum, [, count]) => sum + count, 0);
    context.globalAlpha = Math.min(1, all / (BLOCK * BLOCK * FULL_SHARE));
    context.fillStyle = CAUSES[sorted[0][0]].colour;
    context.fillRect(block % columns, Math.floor(block / columns), 1, 1);
  }
}
