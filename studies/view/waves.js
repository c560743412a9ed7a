// Cycles: the waveforms of inputs, outputs and the chosen net, and what the rows are compared with.

const WINDOW = 256, CYCLE_WIDTH = 15, WAVE_HEIGHT = 18, SCALE_HEIGHT = 15;

class Waves {
  constructor(viewer) {
    this.viewer = viewer;
    this.canvas = document.getElementById("waves");
    this.context = this.canvas.getContext("2d");
    this.names = document.getElementById("wave-names");
    this.canvas.addEventListener("click", event => this.viewer.setCycle(this.cycleAt(event)));
    this.canvas.addEventListener("dblclick", event => this.turn(event));
  }

  cycleAt(event) {
    const { run, vectors } = this.viewer;
    return Math.min(vectors.length - 1, run.first + Math.max(0, Math.floor(event.offsetX / CYCLE_WIDTH)));
  }

  // Turns the input that was clicked twice, in its cycle.
  turn(event) {
    const signal = this.signals()[Math.floor((event.offsetY - SCALE_HEIGHT) / WAVE_HEIGHT)];
    if (signal?.input !== undefined) this.viewer.turnInput(signal.input, this.cycleAt(event));
  }

  // Each with a name, its value in a cycle, and what it should be there.
  signals() {
    const { viewer } = this, { scene, run, sound, vectors, data } = viewer, { inputs, outputs } = scene.names;
    const found = scene.image.inputs.map((_, k) =>
      ({ name: inputs[k] ?? `input ${k}`, input: k, value: cycle => Number(vectors[cycle][k]) }));
    const wanted = viewer.isChanged || !data.expected.length ? sound.rows : data.expected;
    scene.image.outputs.forEach((_, k) => found.push({
      name: outputs[k] ?? `output ${k}`,
      value: cycle => Number(run.rows[cycle][k]),
      right: cycle => Number(wanted[cycle]?.[k] ?? run.rows[cycle][k]),
    }));
    const chosen = viewer.chosenNet();
    if (chosen >= 0) {
      const wire = scene.nets[chosen].wires[0];
      found.push({ name: `» ${scene.nets[chosen].name}`, value: cycle => run.wire(wire, cycle), right: cycle => sound.wire(wire, cycle) });
    }
    return found;
  }

  paint() {
    const { viewer, canvas, context } = this, { run } = viewer, holder = document.getElementById("time");
    holder.hidden = !run;
    if (!run) return;
    this.bar();
    const signals = this.signals(), ratio = window.devicePixelRatio || 1, cycles = run.levels.length;
    const width = Math.max(1, cycles * CYCLE_WIDTH), height = SCALE_HEIGHT + signals.length * WAVE_HEIGHT;
    [canvas.width, canvas.height] = [width * ratio, height * ratio];
    [canvas.style.width, canvas.style.height] = [`${width}px`, `${height}px`];
    context.setTransform(ratio, 0, 0, ratio, 0, 0);
    this.names.innerHTML = `<div style="height:${SCALE_HEIGHT}px"></div>`
      + signals.map(({ name }) => `<div style="height:${WAVE_HEIGHT}px">${escaped(name)}</div>`).join("");
    this.scale(cycles, height);
    signals.forEach((signal, k) => this.wave(signal, SCALE_HEIGHT + k * WAVE_HEIGHT, cycles));
    this.follow();
  }

  // The numbers of cycles, and the one at hand.
  scale(cycles, height) {
    const { context, viewer } = this, { first } = viewer.run;
    context.font = "10px system-ui, sans-serif";
    context.textBaseline = "top";
    context.textAlign = "left";
    for (let k = 0; k < cycles; k++) {
      if ((first + k) % 5) continue;
      context.fillStyle = FAINT;
      context.fillText(first + k, k * CYCLE_WIDTH + 2, 2);
      context.fillStyle = "#e1e5eb";
      context.fillRect(k * CYCLE_WIDTH, SCALE_HEIGHT, 1, height);
    }
    context.fillStyle = "#ffe9a8";
    context.fillRect((viewer.state.cycle - first) * CYCLE_WIDTH, 0, CYCLE_WIDTH, height);
    context.fillStyle = INK;
    context.fillText(viewer.state.cycle, (viewer.state.cycle - first) * CYCLE_WIDTH + 2, 2);
  }

  // One signal: high where it is 1; where it isn't what it should be, on red and with what that is as dashes.
  wave({ value, right }, top, cycles) {
    const { context } = this, { first } = this.viewer.run, high = top + 4, low = top + WAVE_HEIGHT - 4;
    const level = bit => bit ? high : low;
    for (let k = 0; k < cycles; k++) {
      const bit = value(first + k), x = k * CYCLE_WIDTH, isWrong = right && right(first + k) !== bit;
      context.fillStyle = isWrong ? "#f3b3a6" : bit ? "#cfe0f5" : "#00000000";
      context.fillRect(x, isWrong ? top + 1 : high, CYCLE_WIDTH, isWrong ? WAVE_HEIGHT - 2 : low - high);
      context.fillStyle = "#28527a";
      context.fillRect(x, level(bit) - 0.75, CYCLE_WIDTH, 1.5);
      if (k && value(first + k - 1) !== bit) context.fillRect(x - 0.75, high, 1.5, low - high);
      if (isWrong) for (let dash = 0; dash < 3; dash++) context.fillRect(x + 1 + dash * 5, level(!bit) - 0.5, 3, 1);
    }
  }

  // Keeps the cycle at hand in sight.
  follow() {
    const box = document.getElementById("wave-box"), x = (this.viewer.state.cycle - this.viewer.run.first) * CYCLE_WIDTH;
    if (x < box.scrollLeft || x + CYCLE_WIDTH > box.scrollLeft + box.clientWidth) box.scrollLeft = x - box.clientWidth / 2;
  }

  bar() {
    const { viewer } = this, { state, vectors, run } = viewer, ticks = viewer.scene.image.ticks;
    const tick = state.tick < 0 ? "settled" : `after tick ${state.tick}`;
    const row = `read ${run.rows[state.cycle]}`, given = vectors[state.cycle];
    document.getElementById("cycle-words").innerHTML = `<b>cycle ${state.cycle}</b> of ${vectors.length}`;
    document.getElementById("tick-words").textContent = `${tick}, ${ticks} tick${ticks === 1 ? "" : "s"} a cycle`;
    document.getElementById("row-words").innerHTML = `${this.compared()} <code>${given} ${row}</code>`;
    const range = document.getElementById("window");
    range.hidden = vectors.length <= WINDOW;
    [range.max, range.value] = [Math.max(0, vectors.length - WINDOW), run.first];
  }

  // The first cycle in which two copies read differently: there `twice` ends.
  copies() {
    const { run, data } = this.viewer, half = data.split[1];
    const first = run.rows.findIndex(row => row.slice(0, half) !== row.slice(half));
    return first < 0 ? "the copies read alike" : `<mark><a href="#" data-cycle="${first}">the copies differ in cycle ${first}</a></mark>`;
  }

  // How many rows differ from those of `eval` and from those that were given.
  compared() {
    const { viewer } = this, { run, data } = viewer, words = data.copies ? [this.copies()] : [];
    if (viewer.isChanged) return "<mark>inputs were changed</mark>, so rows are compared with a sound machine's";
    const count = rows => run.rows.findIndex((row, k) => rows[k] !== undefined && rows[k] !== row);
    for (const [rows, of] of [[data.expected, "eval"], [viewer.off.length ? [] : data.rows, data.copies ? "twice" : "run"]]) {
      if (!rows.length) continue;
      const first = count(rows), bad = run.rows.filter((row, k) => rows[k] !== undefined && rows[k] !== row).length;
      const differ = `${many(bad, "row")} differ from ${of}, the first in cycle ${first}`;
      words.push(bad ? `<mark><a href="#" data-cycle="${first}">${differ}</a></mark>`
        : `all rows are those of <i>${of}</i>`);
    }
    return words.join("; ");
  }
}
