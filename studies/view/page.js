// Events, and the place in the address.

const viewer = new Viewer(JSON.parse(document.getElementById("data").textContent));
const picture = document.getElementById("picture"), search = document.getElementById("search");

// The way from the machine down to the node that takes up most of what is seen of the one above it.
function crumbs() {
  const { painter, machine } = viewer, { view } = painter, path = [machine.root];
  const seen = { x: view.x, y: view.y, width: painter.width / viewer.shown.length / view.scale, height: painter.height / view.scale };
  const shared = (start, size, other, more) => Math.max(0, Math.min(start + size, other + more) - Math.max(start, other));
  const area = node => shared(node.x, node.width, seen.x, seen.width) * shared(node.y, node.height, seen.y, seen.height);
  for (;;) {
    const last = path[path.length - 1], next = last.children.find(node => area(node) > 0.7 * area(last));
    if (!next) break;
    path.push(next);
  }
  const words = path.map(node => link("node", node.number, node.level ? node.name.split(".").at(-1) : "machine"));
  const level = view.scale < CROSSES_FROM ? "densities" : view.scale < NAMES_FROM ? "crosspoints" : "names";
  document.getElementById("crumbs").innerHTML = `${words.join(" › ")} <small>${level}, ${view.scale.toFixed(2)} points</small>`;
}

// The address says what is in sight, so that it can be sent to someone.
function address() {
  const { state, painter: { view } } = viewer, words = new URLSearchParams();
  if (state.selection) words.set("pick", viewer.chosenName());
  words.set("at", [view.x.toFixed(1), view.y.toFixed(1), view.scale.toFixed(3)].join());
  if (state.cycle) words.set("cycle", state.cycle);
  if (state.hidden.size) words.set("hide", [...state.hidden].join());
  if (state.show !== "0") words.set("show", state.show);
  if (state.showsValues) words.set("values", 1);
  history.replaceState(null, "", `#${words.toString().replaceAll("%2C", ",")}`);
}

function goToAddress() {
  const words = new URLSearchParams(location.hash.slice(1)), { state, painter } = viewer;
  state.hidden = new Set((words.get("hide") || "").split(",").filter(name => CAUSES[name]));
  state.cycle = Math.max(0, Number(words.get("cycle")) || 0);
  state.showsValues = document.getElementById("values").checked = words.get("values") === "1";
  viewer.show(words.get("show") || "0");
  viewer.panels();  // now, since they take room from the picture
  const found = words.get("pick") && viewer.meaning(words.get("pick"));
  state.selection = found ? { kind: found[0], at: found[1] } : null;
  const [x, y, scale] = (words.get("at") || "").split(",").map(Number);
  if (scale > 0) painter.view = { x, y, scale };
  else viewer.goTo(found ? areaOf(viewer.machine, viewer.scene, ...found) : viewer.machine.root, found ? found[0] : "node");
  viewer.refresh();
}

let addressTimer = 0;
viewer.onPainted = () => {
  crumbs();
  clearTimeout(addressTimer);
  addressTimer = setTimeout(address, 200);
};

function clicked(event) {
  const at = event.target.closest("[data-pick],[data-cause],[data-cycle],[data-off],[data-show],[data-do]");
  if (!at) return;
  event.preventDefault();
  const { pick, cause, cycle, off, show } = at.dataset, part = (pick || off || "").split(" ");
  if (pick) viewer.select(part[0], Number(part[1]), true);
  if (cause) viewer.turnCause(cause);
  if (cycle) viewer.setCycle(Number(cycle));
  if (off) viewer.turnFault(part[0], Number(part[1]));
  if (show) viewer.show(show);
  if (at.dataset.do) DEEDS[at.dataset.do]();
}

// Goes to the node above the one in sight, or above the selected one.
function goUp() {
  const { kind, at } = viewer.state.selection ?? {}, { machine } = viewer;
  const above = {
    node: () => machine.nodes[at].parent ?? machine.root,
    wire: () => machine.nodeOfWire(at),
    cross: () => machine.nodeOfCross(at),
    table: () => machine.nodeOfTable(at),
  };
  viewer.select("node", (above[kind]?.() ?? machine.root).number, true);
}

function nextNet(step) {
  const count = viewer.scene.nets.length, at = viewer.chosenNet();
  if (count) viewer.select("net", at < 0 ? (step > 0 ? 0 : count - 1) : (at + step + count) % count, true);
}

const middle = () => [viewer.painter.width / viewer.shown.length / 2, viewer.painter.height / 2];
const PAN = 80;

const DEEDS = {
  whole: () => { viewer.goTo(viewer.machine.root, "node"); viewer.schedule(); },
  nearer: () => viewer.zoom(1.4, ...middle()),
  farther: () => viewer.zoom(1 / 1.4, ...middle()),
  up: goUp,
  earlier: () => viewer.setCycle(viewer.state.cycle - 1),
  later: () => viewer.setCycle(viewer.state.cycle + 1),
  "tick-back": () => viewer.stepTick(-1),
  "tick-on": () => viewer.stepTick(1),
  values: () => {
    viewer.state.showsValues = !viewer.state.showsValues;
    document.getElementById("values").checked = viewer.state.showsValues;
    viewer.refresh();
  },
  help: () => { const box = document.getElementById("help"); box.hidden = !box.hidden; },
  left: () => viewer.pan(-PAN, 0),
  right: () => viewer.pan(PAN, 0),
  above: () => viewer.pan(0, -PAN),
  below: () => viewer.pan(0, PAN),
  "step-back": () => viewer.goToStep(viewer.state.step - 1),
  "step-on": () => viewer.goToStep(viewer.state.step + 1),
  next: () => nextNet(1),
  last: () => nextNet(-1),
  search: () => search.focus(),
  none: () => { document.getElementById("help").hidden = true; viewer.unselect(); },
};

const KEYS = {
  0: "whole", "+": "nearer", "=": "nearer", "-": "farther", u: "up", ArrowLeft: "left", ArrowRight: "right", ArrowUp: "above",
  ArrowDown: "below", ",": "earlier", ".": "later", "<": "tick-back", ">": "tick-on", v: "values", n: "next", p: "last", "/": "search",
  "?": "help", Escape: "none",
};

function pressed(event) {
  if (event.target === search) {
    if (event.key === "Enter") search.classList.toggle("missed", !viewer.find(search.value));
    if (event.key === "Escape") search.blur();
    return;
  }
  if (event.ctrlKey || event.metaKey || event.altKey || !KEYS[event.key]) return;
  event.preventDefault();
  DEEDS[KEYS[event.key]]();
}

// Names of nets and nodes that begin with what was typed.
function suggest() {
  const typed = search.value.trim().toLowerCase(), { scene, machine } = viewer;
  const names = [...scene.nets.flatMap(net => [net.name, ...net.also]), ...machine.nodes.map(node => node.name)];
  const found = [...new Set(names)].filter(name => name.toLowerCase().includes(typed)).slice(0, 30);
  document.getElementById("suggestions").innerHTML = typed ? found.map(name => `<option value="${escaped(name)}">`).join("") : "";
}

let drag = null;

function moved(event) {
  if (drag) {
    drag.isFar ||= Math.hypot(event.offsetX - drag.x, event.offsetY - drag.y) > 3;
    if (!drag.isFar) return;
    viewer.pan(drag.lastX - event.offsetX, drag.lastY - event.offsetY);
    [drag.lastX, drag.lastY] = [event.offsetX, event.offsetY];
    return;
  }
  const part = viewer.partAt(event.offsetX, event.offsetY), causes = viewer.scene.marks.kinds[part[0]]?.get(part[1])?.causes || [];
  document.getElementById("under").textContent = [viewer.machine.partName(...part), ...causes.map(name => CAUSES[name].words)].join(", ");
}

function listen() {
  document.addEventListener("click", clicked);
  document.addEventListener("keydown", pressed);
  search.addEventListener("input", suggest);
  document.getElementById("values").addEventListener("change", DEEDS.values);
  document.getElementById("window").addEventListener("change", event => {
    viewer.state.cycle = Number(event.target.value);
    viewer.simulate(viewer.state.cycle);
  });
  picture.addEventListener("wheel", event => {
    event.preventDefault();
    viewer.zoom(Math.exp(-event.deltaY * 0.0015), event.offsetX % (viewer.painter.width / viewer.shown.length), event.offsetY);
  }, { passive: false });
  picture.addEventListener("pointerdown", event => {
    drag = { x: event.offsetX, y: event.offsetY, lastX: event.offsetX, lastY: event.offsetY, isFar: false };
    picture.setPointerCapture(event.pointerId);
  });
  picture.addEventListener("pointermove", moved);
  picture.addEventListener("pointerup", event => {
    if (drag && !drag.isFar) viewer.select(...viewer.partAt(event.offsetX, event.offsetY), false);
    drag = null;
  });
  window.addEventListener("hashchange", goToAddress);
  new ResizeObserver(() => viewer.schedule()).observe(picture);
}

function begin() {
  const { data, scenes } = viewer, own = scenes.map(({ name }, k) => [String(k), name]);
  const isCompared = scenes.length === 2 && scenes.every(({ image, list }) => image || list);
  const together = [["overlay", "all together"], ...scenes.every(({ image }) => image) ? [["used", "used how often"]] : []];
  const more = isCompared ? [["both", "side by side"], ["difference", "difference"]] : together;
  const shown = scenes.length > 1 ? [...own, ...more] : [];
  document.title = `${data.title} - teramac`;
  document.getElementById("title").textContent = data.title;
  const buttons = shown.map(([word, name]) => `<button data-show="${word}">${escaped(name)}</button>`);
  document.getElementById("scenes").innerHTML = buttons.join("");
  listen();
  goToAddress();
  if (data.walk.length && !location.hash) viewer.goToStep(0);
  viewer.paintNow();
  viewer.readyAfter = performance.now();
}

begin();
