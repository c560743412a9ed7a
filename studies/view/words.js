// What the side panel says of a part, as HTML.

const escaped = text => String(text).replace(/[&<>"]/g, letter => ({ "&": "&amp;", "<": "&lt;", ">": "&gt;", "\"": "&quot;" })[letter]);
const link = (kind, at, words) => `<a href="#" data-pick="${kind} ${at}">${escaped(words)}</a>`;
const many = (count, word) => `${count.toLocaleString("en")} ${word}${count === 1 ? "" : "s"}`;
const paragraph = words => words ? `<p>${words}</p>` : "";

const icons = new Map();

// A small picture of a cause: its shape, its pattern of dashes, or its letter.
function iconOf(name) {
  if (icons.has(name)) return icons.get(name);
  const { colour, shape, dash, letter } = CAUSES[name], canvas = document.createElement("canvas");
  [canvas.width, canvas.height] = [44, 28];
  const context = canvas.getContext("2d");
  context.scale(2, 2);
  context.strokeStyle = context.fillStyle = colour;
  context.lineWidth = 2;
  context.beginPath();
  if (shape) SHAPES[shape](context, 11, 7, 4);
  else if (dash) {
    context.setLineDash(dash);
    context.moveTo(0, 7);
    context.lineTo(22, 7);
  } else {
    context.font = "700 12px system-ui, sans-serif";
    context.fillText(letter, 7, 11);
  }
  if (shape === "square") context.fill();
  else if (shape || dash) context.stroke();
  icons.set(name, canvas.toDataURL());
  return icons.get(name);
}

class Words {
  constructor(viewer) { this.viewer = viewer; }

  get scene() { return this.viewer.scene; }

  get machine() { return this.viewer.machine; }

  wire(wire) { return link("wire", wire, this.machine.wireName(wire)); }

  net(number) { return link("net", number, this.scene.nets[number].name); }

  summary() {
    const { machine, scene, viewer } = this, { image } = scene;
    const parts = [many(machine.nodes.length, "crossbar"), many(machine.wires, "wire"), many(machine.crosses, "crosspoint"),
      many(machine.tables, "table")];
    if (image) {
      const { closed, tables } = image;
      parts.push(many(scene.nets.length, "net"), `${many(closed.length, "crosspoint")} closed`, `${many(tables.size, "table")} on`);
    }
    const { refusal } = viewer.data, short = refusal ? `<p class="left">No room: ${escaped(refusal.words)} `
      + `${link("node", machine.byName.get(refusal.node).number, "Show it")}</p>` : "";
    const left = viewer.data.left.map(words => `<p class="left">${escaped(words)}</p>`).join("");
    return `<p class="small">${parts.join(", ")}</p>${short}${left}${paragraph(scene.words)}`;
  }

  // The step of the walk at hand, with the way to those before and behind it.
  walk() {
    const { data: { walk }, state: { step } } = this.viewer;
    if (!walk.length) return "";
    const button = (deed, words) => `<button data-do="${deed}" title="${words}">${deed === "step-on" ? "▸" : "◂"}</button>`;
    return `<h3>A walk</h3><p>${escaped(walk[step].words)}</p><p class="small">${button("step-back", "the step before")} `
      + `${step + 1} of ${walk.length} ${button("step-on", "the next step")}</p>`;
  }

  // How many parts have each cause; of crosspoints that were left out the number alone is known.
  causes() {
    const { scene } = this, { hidden } = this.viewer.state, here = scene.marks.counts(), all = { ...here };
    for (const counts of Object.values(scene.counted)) for (const cause in counts) all[cause] = (all[cause] || 0) + counts[cause];
    const count = name => `<b>${all[name].toLocaleString("en")}</b>`
      + (all[name] === (here[name] || 0) ? "" : ` <small>${(here[name] || 0).toLocaleString("en")} here</small>`);
    const lines = Object.keys(CAUSES).filter(name => all[name]).map(name =>
      `<button class="cause" data-cause="${name}" aria-pressed="${!hidden.has(name)}"><img src="${iconOf(name)}" alt="">`
      + `<span>${CAUSES[name].words}</span>${count(name)}</button>`);
    return lines.join("") || paragraph("none");
  }

  selection() {
    const { selection } = this.viewer.state;
    if (!selection) return "<p class=\"small\">Click a wire, a crosspoint, a table or a crossbar, or search for it.</p>";
    const { kind, at } = selection;
    return this[`${kind}Words`](at) + (kind === "wire" && this.scene.netOf[at] >= 0 ? this.tree(this.scene.netOf[at]) : "");
  }

  // What is wrong with a part, and how it stands with the list.
  standing(kind, at) {
    const { scene } = this, mark = scene.marks.of(kind, at), { list } = scene;
    const faulty = (mark?.words || []).map(escaped).join("<br>") || (scene.hasFaults ? "no fault" : "");
    let listed = "";
    if (list) listed = list.has(kind, at) ? "on the list" : list.isFree(kind, at) ? "free" : "not free: a wire of it is listed";
    return `<p>${[faulty, listed].filter(Boolean).join("<br>")}</p>${this.putOff(kind, at, faulty)}`;
  }

  // A switch that puts the faults of a part off in the simulated machine.
  putOff(kind, at, faulty) {
    const { run, off } = this.viewer;
    if (!run || !faulty.includes("fault:")) return "";
    const isOff = off.some(part => part.kind === kind && part.at === at);
    return `<button data-off="${kind} ${at}">${isOff ? "put the fault back" : "run without this fault"}</button>`;
  }

  wireWords(wire) {
    const { scene, machine, viewer } = this, { list } = scene, cycle = viewer.state.cycle;
    const why = list && list.wires.has(wire) && scene.hasFaults ? paragraph(escaped(scene.whyListed(wire))) : "";
    const value = viewer.run?.wire(wire, cycle), sound = viewer.sound?.wire(wire, cycle);
    const read = value === undefined ? "" : `value ${value} in cycle ${cycle}${value === sound ? "" : `, on a sound machine ${sound}`}`;
    const head = `<h4>wire ${machine.wireName(wire)} <small>${wire}</small></h4>${this.standing("wire", wire)}`;
    return head + why + paragraph(read) + this.joined(wire);
  }

  // The nets that faults join with the one of a wire.
  joined(wire) {
    const { scene, viewer } = this, own = scene.netOf[wire];
    if (!viewer.run || own === undefined || own < 0) return "";
    const { groups } = viewer.run.circuit, group = groups.find(wire);
    const others = new Set(viewer.run.wires.filter(other => groups.find(other) === group).map(other => scene.netOf[other]));
    others.delete(own);
    return others.size ? paragraph(`Faults join it with ${[...others].map(number => this.net(number)).join(", ")}.`) : "";
  }

  crossWords(cross) {
    const { scene, machine } = this, [tap, line] = machine.ends(cross);
    const net = scene.closedIn(machine.nodeOfCross(cross)).includes(cross) ? scene.netOf[line] : -1;
    const closed = net >= 0 ? `closed by the image for net ${this.net(net)}` : scene.image ? "left open by the image" : "";
    const head = `<h4>crosspoint <small>${cross}</small></h4><p>${this.wire(tap)} ${this.wire(line)}</p>`;
    return head + this.standing("cross", cross) + paragraph(closed);
  }

  tableWords(table) {
    const { scene, machine } = this, setting = scene.image?.tables.get(table);
    const state = !setting ? "switched off" : setting.latched ? `latched, starts at ${setting.initial}` : "combinational";
    const head = `<h4>table ${machine.tableName(table)} <small>${table}</small></h4>${this.standing("table", table)}`;
    return head + (scene.image ? paragraph(state) : "") + (setting ? this.pins(table) + this.cells(table) : "");
  }

  pins(table) {
    const { scene, machine, viewer } = this, cycle = viewer.state.cycle;
    const lines = PINS.map((pin, k) => {
      const wire = machine.pinOf(table, k), number = scene.netOf[wire], value = viewer.run?.wire(wire, cycle);
      const head = `<tr><th>${k < OUTPUT_PIN ? "reads" : "gives"}</th><td>${link("wire", wire, pin)}</td>`;
      return number < 0 ? "" : `${head}<td>${this.net(number)}</td><td>${value ?? ""}</td></tr>`;
    });
    return `<table class="pins">${lines.join("")}</table>`;
  }

  // The 64 cells, sixteen to a row; wrong ones are marked, and the one that is read now.
  cells(table) {
    const { scene, viewer, machine } = this, { cells } = scene.faults, cycle = viewer.state.cycle;
    const bits = PINS.slice(0, OUTPUT_PIN).map((_, pin) => viewer.run?.wire(machine.pinOf(table, pin), cycle) ?? 1);
    const now = viewer.run ? bits.reduce((sum, bit, pin) => sum + (bit << pin), 0) : -1;
    const cell = address => {
      const right = scene.image.cell(table, address), given = cells.get(table * CELLS + address);
      const isWrong = given !== undefined && given !== right, classes = [isWrong && "wrong", address === now && "now"].filter(Boolean);
      return `<td class="${classes.join(" ")}" title="cell ${address}${isWrong ? `: should give ${right}` : ""}">${given ?? right}</td>`;
    };
    const row = first => `<tr><th>${first}</th>${Array.from({ length: 16 }, (_, k) => cell(first + k)).join("")}</tr>`;
    return `<table class="cells">${[0, 16, 32, 48].map(row).join("")}</table>`;
  }

  nodeWords(number) {
    const node = this.machine.nodes[number], { scene } = this, used = scene.usedIn(node).filter(([, isLine]) => isLine).length;
    const counts = Object.entries(this.countsAt(node)).map(([cause, count]) =>
      `<tr><td>${CAUSES[cause].words}</td><td>${count.toLocaleString("en")}</td></tr>`);
    const name = node.level ? `${LEVELS[node.level]} ${node.name}` : "the machine's root r";
    const lines = scene.image ? `, ${used} of them used` : "";
    return `<h4>${name}</h4><p>${many(node.taps, "tap")}, ${many(node.lines, "line")}${lines}</p><table>${counts.join("")}</table>`
      + (this.viewer.data.refusal?.node === node.name ? this.refusal() : "");
  }

  countsAt(node) {
    const { crosses, wires, tables } = this.scene.marks.at(node), counts = { ...this.scene.counted[node.name] };
    for (const [, causes] of crosses) for (const cause of causes) counts[cause] = (counts[cause] || 0) + 1;
    for (const [, , causes] of wires) for (const cause of causes) counts[cause] = (counts[cause] || 0) + 1;
    for (const [, causes] of tables) for (const cause of causes) counts[cause] = (counts[cause] || 0) + 1;
    return counts;
  }

  netWords(number) {
    const { scene } = this, net = scene.nets[number], since = this.viewer.differs?.since.get(number);
    const also = net.also.slice(1).length ? `, also ${net.also.slice(1).map(escaped).join(", ")}` : "";
    const design = scene.names.split ? `, of the ${net.design ? "second" : "first"} ${scene.names.of}` : "";
    const differs = since === undefined ? "" : paragraph(`<mark>reads other than on a sound machine from cycle ${since} on</mark>`);
    return `<h4>net ${escaped(net.name)} <small>${number}${also}${design}</small></h4>${differs}${this.tree(number)}`;
  }

  // A net in words: from what drives it along wires, a line for each branch.
  tree(number) {
    const { scene, machine } = this, net = scene.nets[number], beside = new Map(net.wires.map(wire => [wire, []]));
    for (const cross of net.crosses) {
      const [tap, line] = machine.ends(cross);
      beside.get(tap).push([line, cross]);
      beside.get(line).push([tap, cross]);
    }
    const driver = net.driver >= 0 ? machine.pinOf(net.driver, OUTPUT_PIN) : scene.image.inputs[net.inputs[0]] ?? net.wires[0];
    const seen = new Set([driver]), lines = [], due = [[driver, null, 0]];
    while (due.length) {
      let [wire, by, depth] = due.pop();
      const chain = [];
      for (;;) {
        chain.push(this.step(wire, by));
        const next = beside.get(wire).filter(([other]) => !seen.has(other));
        for (const [other] of next) seen.add(other);
        if (next.length !== 1) {
          due.push(...next.reverse().map(([other, cross]) => [other, cross, depth + 1]));
          break;
        }
        [[wire, by]] = next;
      }
      lines.push(`<div style="margin-left:${Math.min(depth, 12) * 10}px">${depth ? "└ " : ""}${chain.join(" ")}</div>`);
    }
    return `<div class="tree">${lines.join("")}</div>`;
  }

  // A wire on the way, with what is wrong there and what ends there.
  step(wire, by) {
    const { scene, machine } = this, { faults, image } = scene, pin = machine.tablePin(wire);
    const broken = by !== null && faults.open.has(by) ? " <b class=\"bad\">never conducts</b>" : "";
    const stuck = faults.stuck.has(wire) ? ` <b class="bad">stuck at ${faults.stuck.get(wire)}</b>` : "";
    const input = image.inputs.indexOf(wire), output = image.outputs.indexOf(wire), { inputs, outputs } = scene.names;
    const ends = input >= 0 ? ` input ${escaped(inputs[input] ?? input)}` : output >= 0 ? ` output ${escaped(outputs[output] ?? output)}`
      : pin ? pin[1] === OUTPUT_PIN ? ", which gives it" : ", which reads it" : "";
    return `${by === null ? "" : "→ "}${this.wire(wire)}${broken}${stuck}${ends}`;
  }

  // The nets by name; first what differs from a sound machine, and what is in doubt.
  nets() {
    const { scene, viewer } = this;
    if (!scene.nets.length) return "";
    const style = net => `border-color:${netColour(scene, net, false)};color:${netColour(scene, net, true)}`;
    const spot = net => `<a href="#" data-pick="net ${net.number}" style="${style(net)}">${escaped(net.name)}</a>`;
    const shown = scene.nets.slice(0, 600), of = design => shown.filter(net => net.design === design).map(spot).join(" ");
    const kind = scene.names.of, told = ["first", "second"].map((which, k) => `<p class="small">the ${which} ${kind}</p>${of(k)}`);
    const lists = scene.names.split ? told.join("") : of(0);
    const more = scene.nets.length > 600 ? paragraph(`and ${scene.nets.length - 600} more: search for them by name`) : "";
    return `<h3>Nets</h3>${this.doubt()}${viewer.run ? this.differing() : ""}<div class="nets">${lists}</div>${more}`;
  }

  differing() {
    const { differs } = this.viewer;
    if (!this.scene.hasFaults) return "";
    if (!differs.since.size) return paragraph("All nets read as on a sound machine.");
    const read = differs.since.size === 1 ? "reads" : "read";
    return `<p><mark>${many(differs.since.size, "net")} ${read} other than on a sound machine, the first `
      + `${this.net(differs.origin)} in <a href="#" data-cycle="${differs.cycle}">cycle ${differs.cycle}</a></mark></p>`;
  }

  // As `check` says it by the list: the first part of the image that isn't free.
  doubt() {
    const { scene, machine } = this, { list, image } = scene;
    if (!list) return "";
    const pins = [...image.tables.keys()].flatMap(table => PINS.map((_, pin) => machine.pinOf(table, pin)));
    const wires = [...image.inputs, ...image.outputs, ...scene.nets.flatMap(net => net.wires), ...pins].sort((one, other) => one - other);
    const wire = wires.find(at => !list.isFree("wire", at)), cross = image.closed.find(at => !list.isFree("cross", at));
    const table = [...image.tables.keys()].find(at => !list.isFree("table", at));
    const found = [["wire", wire], ["cross", cross], ["table", table]].find(([, at]) => at !== undefined);
    if (!found) return paragraph("The image uses nothing that is listed.");
    return `<p><mark>doubt ${found[0]} ${link(...found, machine.partName(...found))}</mark></p>`;
  }

  // Nets that want lines of a node where too few serve; of the one that was clicked the picture shows taps and lines.
  refusal() {
    const { refusal, machine } = { refusal: this.viewer.data.refusal, machine: this.machine }, node = machine.byName.get(refusal.node);
    const lines = refusal.nets.map(({ number, name, taps, serving }, k) =>
      `<tr><td>${link("wanting", k, number)}</td><td>${escaped(name)}</td>`
      + `<td>${taps.map(wire => this.wire(wire)).join(" ")}</td><td>${serving.length}</td></tr>`);
    const all = new Set(refusal.nets.flatMap(net => net.serving)).size;
    const words = lines.length ? `Of the ${node.lines} lines ${all} serve one of these nets or more.` : "";
    return `${paragraph(escaped(refusal.words))}${paragraph(words)}<table class="refusal"><tr><th>net</th><th>of</th><th>taps</th>`
      + `<th>lines that serve</th></tr>${lines.join("")}</table>`;
  }

  wantingWords(place) {
    const { refusal } = this.viewer.data, net = refusal.nets[place];
    const taps = net.taps.map(wire => this.wire(wire)).join(", "), serving = net.serving.map(wire => this.wire(wire)).join(" ") || "none";
    return `<h4>net ${net.number} <small>${escaped(net.name)}</small></h4><p>wants a line that joins ${taps}; these serve: ${serving}</p>`
      + this.refusal();
  }

  // The runs of a study, failed ones first.
  study() {
    const { study } = this.viewer.data;
    if (!study) return "";
    const line = ({ words, run, isFailed }) => `<tr class="${isFailed ? "failed" : ""}"><td>${run < 0 ? escaped(words)
      : `<a href="#" data-show="run ${run}">${escaped(words)}</a>`}</td></tr>`;
    return `<h3>Runs of ${escaped(study.name)}</h3><p><a href="#" data-show="overlay">all sets of faults together</a></p>`
      + `<table class="study">${study.rows.map(line).join("")}</table>`;
  }
}
