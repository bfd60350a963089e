"use strict";

const story = JSON.parse(document.getElementById("story").textContent);
const byId = id => document.getElementById(id);

/** Where the reader stands: the step, which side of each tree is shown, the node chosen, and what the step changed on that side. */
const view = { step: 0, side: "copy", chosen: null, changes: new Map() };

// ---- The trees after each step

/** What is shown before the first step. */
function blankState() {
  const trees = () => new Map(story.trees.map(tree => [tree, { root: 0, nodes: new Map(), data: null, ended: false }]));
  return { at: -1, source: trees(), copy: trees() };
}

let state = blankState();

/** Brings the trees to what they are after a step. */
function goTo(step) {
  if (step < state.at) state = blankState();
  while (state.at < step) {
    state.at += 1;
    const change = story.steps[state.at].change;
    if (change) applyChange(state[change.side].get(change.tree), change);
  }
}

function applyChange(tree, change) {
  if (change.ended) {
    tree.ended = true;
    return;
  }
  tree.root = change.root;
  for (const node of change.gone) tree.nodes.delete(node);
  for (const [node, told] of Object.entries(change.nodes)) tree.nodes.set(Number(node), told);
  if (change.data) tree.data = change.data;
}

/** What a step did to each node of the side that is shown: "new", or the names of what changed. */
function changesOf(step) {
  const found = new Map();
  const change = story.steps[step] && story.steps[step].change;
  if (!change || change.side !== view.side || change.ended) return found;
  goTo(step - 1);
  const before = new Map(state[change.side].get(change.tree).nodes);
  goTo(step);
  for (const [node, told] of Object.entries(change.nodes)) {
    const old = before.get(Number(node));
    found.set(`${change.tree}:${node}`, old ? differences(old, told) : "new");
  }
  return found;
}

function differences(old, now) {
  const names = [];
  if (old.role !== now.role) names.push("role");
  if (old.up !== now.up) names.push("place");
  for (const state of new Set([...old.states, ...now.states])) {
    if (old.states.includes(state) !== now.states.includes(state)) names.push(state);
  }
  for (const name of new Set([...Object.keys(old.attrs), ...Object.keys(now.attrs)])) {
    if (old.attrs[name] !== now.attrs[name]) names.push(name);
  }
  if (String(old.rect) !== String(now.rect)) names.push("box");
  if (String(old.children) !== String(now.children)) names.push("children");
  return names.join(", ");
}

/** The nodes of a tree with their levels, a node before those below it. */
function* preOrder(tree) {
  const waiting = tree.root ? [[tree.root, 1]] : [];
  while (waiting.length) {
    const [node, level] = waiting.pop();
    yield [node, level];
    const children = tree.nodes.get(node).children;
    for (let at = children.length - 1; at >= 0; at--) waiting.push([children[at], level + 1]);
  }
}

/** Where each node of a tree is on the page: its rectangle, measured from its container. */
function extents(tree) {
  const known = new Map();
  const origin = node => {
    if (!known.has(node)) {
      const told = tree.nodes.get(node);
      let [x, y] = told.rect;
      const base = containerOf(tree, told);
      if (base) {
        const [baseX, baseY] = origin(base), scrolled = tree.nodes.get(base).attrs;
        x += baseX - (scrolled.scroll_x || 0);
        y += baseY - (scrolled.scroll_y || 0);
      }
      known.set(node, [x, y]);
    }
    return known.get(node);
  };
  return new Map([...preOrder(tree)].map(([node]) => [node, [...origin(node), ...tree.nodes.get(node).rect.slice(2)]]));
}

function containerOf(tree, told) {
  for (let up = told.up; up; up = tree.nodes.get(up).up) {
    if (up === told.attrs.container) return up;
  }
  return 0;
}

// ---- Small helpers

/** An element with attributes and children. */
function make(name, attributes = {}, ...children) {
  const element = document.createElement(name);
  for (const [key, value] of Object.entries(attributes)) {
    if (value !== undefined && value !== false) element.setAttribute(key, value);
  }
  element.append(...children);
  return element;
}

function nodeAt(place) {
  const [tree, node] = place.split(":").map(Number);
  return state[view.side].has(tree) && !hasEnded(tree) ? state[view.side].get(tree).nodes.get(node) : undefined;
}

/** Whether the browser has ended a tree: then nothing of it is shown any more. */
function hasEnded(tree) {
  return state.copy.get(tree).ended;
}

/** A node in words. */
function wordsOf(tree, node) {
  const told = nodeAt(`${tree}:${node}`);
  if (!told) return `${tree}:${node}`;
  return `${tree}:${node} ${told.role}` + (told.attrs.name ? ` “${told.attrs.name}”` : "");
}

function isUpdate(step) {
  return step.change && step.change.side === "copy";
}

// ---- The time line

function drawLine() {
  const rows = new Map(story.lanes.map(([lane], at) => [lane, at + 1]));
  byId("lanes").replaceChildren(...story.lanes.map(([, name]) => make("span", {}, name)));
  byId("line").replaceChildren(...story.steps.map((step, at) => {
    const bad = step.kind === "receipt" && !step.change;
    const kind = step.lane === "all" ? "mark all" : isUpdate(step) ? "mark update" : bad ? "mark bad" : "mark";
    const told = { title: step.told, "aria-label": `${at + 1}. ${step.told}` };
    const mark = make("div", { id: `mark-${at}`, role: "option", "aria-selected": "false", class: kind, ...told }, step.mark);
    mark.style.gridColumn = at + 1;
    mark.style.gridRow = step.lane === "all" ? `1 / ${Math.max(2, rows.size + 1)}` : rows.get(step.lane);
    mark.addEventListener("click", () => show(at));
    return mark;
  }), ...story.steps.flatMap((step, at) => step.events ? [eventMark(at, step.events.length, rows.get("e"))] : []));
}

/** How many events a step told. What is read out of the time line has it in the step's own mark. */
function eventMark(at, count, row) {
  const mark = make("div", { class: "mark", "aria-hidden": "true", title: `${count} event${count === 1 ? "" : "s"}` }, String(count));
  mark.style.gridColumn = at + 1;
  mark.style.gridRow = row;
  mark.addEventListener("click", () => show(at));
  return mark;
}

function markLine() {
  const line = byId("line");
  for (const mark of line.querySelectorAll("[aria-selected=true]")) mark.setAttribute("aria-selected", "false");
  const mark = byId(`mark-${view.step}`);
  mark.setAttribute("aria-selected", "true");
  line.setAttribute("aria-activedescendant", mark.id);
  scrollAlong(document.querySelector(".line-box"), mark);
}

/** Scrolls a box along so that one of its parts is seen, without scrolling the page. */
function scrollAlong(box, part) {
  const outer = box.getBoundingClientRect(), inner = part.getBoundingClientRect();
  const left = outer.left + byId("lanes").offsetWidth;
  if (inner.left < left) box.scrollLeft -= left - inner.left + 40;
  if (inner.right > outer.right) box.scrollLeft += inner.right - outer.right + 40;
  if (inner.top < outer.top) box.scrollTop -= outer.top - inner.top;
  if (inner.bottom > outer.bottom) box.scrollTop += inner.bottom - outer.bottom + 16;
}

// ---- The trees

function drawTrees() {
  const parts = [];
  for (const number of story.trees) {
    const tree = state[view.side].get(number);
    const title = tree.data && tree.data.title ? ` “${tree.data.title}”` : "";
    parts.push(make("h3", { id: `tree-${number}` }, `Tree ${number}${title}`));
    parts.push(make("p", { class: "tree-note" }, noteOf(number, tree)));
    if (tree.root && !hasEnded(number)) parts.push(drawTree(number, tree));
  }
  byId("trees").replaceChildren(...parts);
}

/** What is known of a tree beside its nodes. */
function noteOf(number, tree) {
  if (hasEnded(number)) return "has ended";
  if (!tree.root) return "is empty so far";
  const data = tree.data || {};
  const parts = [tree.nodes.size === 1 ? "1 node" : `${tree.nodes.size} nodes`];
  if (data.parent) parts.push(`hangs in tree ${data.parent}`);
  if (data.focus) parts.push(`focus at ${wordsOf(number, data.focus)}`);
  if (data.loaded) parts.push("loaded");
  return parts.join(", ");
}

function drawTree(number, tree) {
  const rows = [];
  const among = new Map([[tree.root, [1, 1]]]);
  for (const [node, level] of preOrder(tree)) {
    const told = tree.nodes.get(node);
    told.children.forEach((child, at) => among.set(child, [at + 1, told.children.length]));
    rows.push(drawRow(`${number}:${node}`, told, level, among.get(node)));
  }
  const box = make("div", { class: "tree", role: "tree", "aria-labelledby": `tree-${number}` }, ...rows);
  const chosen = rows.find(row => row.dataset.place === view.chosen) || rows[0];
  chosen.tabIndex = 0;
  box.addEventListener("keydown", event => treeKey(event, rows));
  box.addEventListener("click", event => {
    const row = event.target.closest(".row");
    if (row) choose(row.dataset.place, true);
  });
  return box;
}

/** The row of a node: at a level, and at a position among so many. */
function drawRow(place, told, level, [position, count]) {
  const change = view.changes.get(place);
  const kind = ["row", change === "new" ? "new" : change !== undefined ? "changed" : "", told.states.includes("ignored") ? "ignored" : ""];
  const row = make("div", {
    role: "treeitem", class: kind.filter(Boolean).join(" "), tabindex: "-1", "aria-level": level, "data-place": place,
    "aria-posinset": position, "aria-setsize": count, "aria-selected": String(place === view.chosen),
  }, make("span", { class: "role" }, told.role));
  row.style.paddingLeft = `${8 + 18 * (level - 1)}px`;
  if (told.attrs.name) row.append(` “${told.attrs.name}”`);
  if (change !== undefined) row.append(" ", make("span", { class: "badge" }, change === "new" ? "new" : `changed: ${change}`));
  const more = [...told.states, ...(told.attrs.value ? [`value “${told.attrs.value}”`] : [])];
  row.append(" ", make("span", { class: "faint" }, [place.split(":")[1], ...more].join(" ")));
  return row;
}

function treeKey(event, rows) {
  const at = rows.indexOf(document.activeElement);
  const level = row => Number(row.getAttribute("aria-level"));
  const above = () => rows.slice(0, at).reverse().find(row => level(row) < level(rows[at]));
  const below = () => rows[at + 1] && level(rows[at + 1]) > level(rows[at]) ? rows[at + 1] : undefined;
  const goals = {
    ArrowDown: () => rows[at + 1], ArrowUp: () => rows[at - 1], ArrowLeft: above, ArrowRight: below,
    Home: () => rows[0], End: () => rows[rows.length - 1],
  };
  const goal = at >= 0 && goals[event.key];
  if (!goal) return;
  event.preventDefault();
  const row = goal();
  if (row) {
    choose(row.dataset.place, false);
    row.focus();
  }
}

/** Chooses a node: it is marked in the tree and on the canvas, and told of. */
function choose(place, focus) {
  view.chosen = place;
  const rows = [...document.querySelectorAll(".row")], chosen = rows.find(row => row.dataset.place === place);
  for (const row of rows) {
    row.setAttribute("aria-selected", String(row === chosen));
    if (chosen && row.parentElement === chosen.parentElement) row.tabIndex = row === chosen ? 0 : -1;
  }
  if (chosen && focus) chosen.focus();
  drawBoxes();
  drawNode();
}

function drawNode() {
  const told = view.chosen && nodeAt(view.chosen);
  const rows = told ? nodeRows(told) : [["", "None is chosen, or it isn’t there in this step. Choose one in a tree or among the boxes."]];
  byId("node").replaceChildren(...rows.flatMap(([name, value]) => [make("dt", {}, name), make("dd", {}, value)]));
}

function nodeRows(told) {
  const [number, node] = view.chosen.split(":").map(Number);
  const box = extents(state[view.side].get(number)).get(node);
  return [["place", view.chosen], ["role", told.role], ["states", told.states.join(", ") || "none"],
    ["rectangle", told.rect.join(", ")], ["on the page", box.join(", ")],
    ...Object.entries(told.attrs).map(([name, value]) => [name, String(value)])];
}

// ---- The boxes

const EVERYWHERE = [-1e12, -1e12, 2e12, 2e12];

/** Each box that is drawn: its place, node and what is seen of its extent, in the order in which they cover one another. */
function boxesNow() {
  const boxes = [], hosts = hostsNow(), hanging = new Set(hosts.values());
  for (const number of story.trees) {
    if (!hanging.has(number)) addBoxes(boxes, number, EVERYWHERE, hosts);
  }
  return boxes;
}

/** Which tree hangs at which place: the first childless node of the tree around that names it. */
function hostsNow() {
  const hosts = new Map();
  for (const number of story.trees.slice(1)) {
    const { data } = state[view.side].get(number), around = data && state[view.side].get(data.parent);
    for (const [node] of around ? preOrder(around) : []) {
      const told = around.nodes.get(node);
      if (told.attrs.child_tree === number && !told.children.length) {
        hosts.set(`${data.parent}:${node}`, number);
        break;
      }
    }
  }
  return hosts;
}

/** Adds the boxes of a tree and of those that hang in it, as far as what clips them lets them be seen. */
function addBoxes(boxes, number, clip, hosts) {
  const tree = state[view.side].get(number);
  if (hasEnded(number) || !tree.root) return;
  const where = extents(tree), clips = new Map([[0, clip]]);
  for (const [node] of preOrder(tree)) {
    const told = tree.nodes.get(node), place = `${number}:${node}`, whole = where.get(node), seen = meet(whole, clips.get(told.up));
    const box = byId("whole").checked ? whole : seen;
    if (box[2] > 0 && box[3] > 0) boxes.push({ place, told, box, root: node === tree.root, leaf: !told.children.length && !hosts.has(place) });
    clips.set(node, told.attrs.clips ? seen : clips.get(told.up));
    if (hosts.has(place)) addBoxes(boxes, hosts.get(place), clips.get(node), hosts);
  }
}

/** What two boxes have in common. */
function meet(one, other) {
  const left = Math.max(one[0], other[0]), top = Math.max(one[1], other[1]);
  return [left, top, Math.min(one[0] + one[2], other[0] + other[2]) - left, Math.min(one[1] + one[3], other[1] + other[3]) - top];
}

/** The part of the page that is drawn: the window, which is the first tree's root, or all. */
function frameOf(boxes) {
  const first = boxes.find(one => one.root && one.place.startsWith(`${story.trees[0]}:`));
  const shown = first && !byId("whole").checked ? [first] : boxes;
  if (!shown.length) return [0, 0, 0, 0];
  const least = at => Math.min(...shown.map(one => one.box[at]));
  const greatest = at => Math.max(...shown.map(one => one.box[at] + one.box[at + 2]));
  return [least(0), least(1), greatest(0), greatest(1)];
}

let drawn = { boxes: [], scale: 1, corners: [0, 0, 0, 0] };

function drawBoxes() {
  const canvas = byId("boxes"), boxes = boxesNow(), corners = frameOf(boxes);
  const width = Math.max(1, corners[2] - corners[0]), height = Math.max(1, corners[3] - corners[1]);
  const scale = Math.min(canvas.clientWidth / width, 900 / height) || 1;
  const dense = window.devicePixelRatio || 1;
  canvas.style.height = `${Math.max(40, Math.ceil(height * scale))}px`;
  canvas.width = Math.ceil(canvas.clientWidth * dense);
  canvas.height = Math.ceil(canvas.clientHeight * dense);
  const pen = canvas.getContext("2d");
  pen.setTransform(scale * dense, 0, 0, scale * dense, -corners[0] * scale * dense, -corners[1] * scale * dense);
  drawn = { boxes, scale, corners };
  for (const one of boxes) drawBox(pen, one, view.changes.get(one.place), scale);
  for (const one of boxes) if (one.place === view.chosen) strokeBox(pen, one.box, color("--accent"), 4 / scale, []);
  drawPoint(pen, scale);
  byId("boxes-told").textContent = boxesWords(boxes, width, height);
}

function color(name) {
  return getComputedStyle(document.documentElement).getPropertyValue(name).trim();
}

function strokeBox(pen, box, style, width, dashes) {
  pen.strokeStyle = style;
  pen.lineWidth = width;
  pen.setLineDash(dashes);
  pen.strokeRect(...box);
}

function drawBox(pen, { told, box, leaf }, change, scale) {
  const ignored = told.states.includes("ignored") || told.states.includes("invisible");
  if (change !== undefined) {
    pen.fillStyle = color(change === "new" ? "--new-back" : "--change-back");
    pen.fillRect(...box);
    strokeBox(pen, box, color(change === "new" ? "--new" : "--change"), 2.5 / scale, [6 / scale, 3 / scale]);
  } else {
    strokeBox(pen, box, color("--edge"), 1 / scale, ignored ? [2 / scale, 3 / scale] : []);
  }
  const size = 12 / scale, name = told.attrs.name;
  if (name && leaf && box[3] > size * 0.9) {
    pen.save();
    pen.beginPath();
    pen.rect(...box);
    pen.clip();
    pen.fillStyle = color("--text");
    pen.font = `${size}px system-ui, sans-serif`;
    pen.textBaseline = "middle";
    pen.fillText(name, box[0] + 3 / scale, box[1] + box[3] / 2);
    pen.restore();
  }
}

/** The point of this step's query, where it asks what stands at one. */
function drawPoint(pen, scale) {
  const asked = story.asked.find(one => one.step === view.step);
  if (!asked || asked.members.x === undefined) return;
  const { x, y } = asked.members, arm = 9 / scale;
  pen.strokeStyle = color("--fault");
  pen.lineWidth = 2.5 / scale;
  pen.setLineDash([]);
  pen.beginPath();
  pen.moveTo(x - arm, y);
  pen.lineTo(x + arm, y);
  pen.moveTo(x, y - arm);
  pen.lineTo(x, y + arm);
  pen.stroke();
}

function boxesWords(boxes, width, height) {
  if (!boxes.length) return "No node has a box in this step.";
  const changed = boxes.filter(one => view.changes.has(one.place)).length;
  const chosen = boxes.find(one => one.place === view.chosen);
  const parts = [`${boxes.length} boxes, ${width} by ${height} pixels drawn at ${Math.round(drawn.scale * 100)} %`, `${changed} changed by this step`];
  if (chosen) parts.push(`chosen: ${wordsOf(...view.chosen.split(":").map(Number))}`);
  return `${parts.join("; ")}.`;
}

function chooseAt(event) {
  const { left, top } = byId("boxes").getBoundingClientRect();
  const x = drawn.corners[0] + (event.clientX - left) / drawn.scale, y = drawn.corners[1] + (event.clientY - top) / drawn.scale;
  const hit = drawn.boxes.filter(({ box }) => x >= box[0] && y >= box[1] && x < box[0] + box[2] && y < box[1] + box[3]).pop();
  if (hit) choose(hit.place, false);
}

// ---- What the step prints

function drawStep() {
  const step = story.steps[view.step];
  byId("told").textContent = step.told + goneWords(step);
  byId("lines").textContent = step.lines.join("\n");
  byId("updates").replaceChildren(...(step.updates ? [table("updates", "Updates", ["Clear", "Root", "Nodes", "Tree data"],
    step.updates.map(one => [one.clear || "none", one.root || "none", one.list.join(" ") || "none", one.data ? "yes" : "no"]))] : []));
  byId("events").replaceChildren(...(step.events ? [table("events", "Events", ["At", "Event"],
    step.events.map(([node, name]) => [node ? wordsOf(step.tree, node) : `tree ${step.tree}`, name]))] : []));
}

function goneWords(step) {
  const gone = step.change && step.change.gone ? step.change.gone : [];
  if (step.change && step.change.side !== view.side) return ` (shown among ${view.side === "copy" ? "the frames’ sources" : "the receiver’s copies"})`;
  return gone.length ? `; gone: ${gone.length > 12 ? `${gone.length} nodes` : gone.join(" ")}` : "";
}

function table(kind, caption, heads, rows) {
  return make("table", { class: kind }, make("caption", {}, caption),
    make("thead", {}, make("tr", {}, ...heads.map(head => make("th", { scope: "col" }, head)))),
    make("tbody", {}, ...rows.map(row => make("tr", {}, ...row.map(cell => make("td", {}, String(cell)))))));
}

function drawQueries() {
  byId("queries-panel").hidden = story.asked.length === 0;
  byId("queries").tBodies[0].replaceChildren(...story.asked.map(one => {
    const go = make("button", { type: "button", "aria-label": `Go to step ${one.step + 1}` }, String(one.step + 1));
    go.addEventListener("click", () => show(one.step));
    return make("tr", { "data-step": one.step }, make("td", {}, go), make("td", {}, String(one.reader)), make("td", {}, one.query), make("td", {}, one.reply));
  }));
}

function markQueries() {
  for (const row of byId("queries").tBodies[0].rows) row.classList.toggle("now", Number(row.dataset.step) === view.step);
}

// ---- Going from step to step

/** Shows a step: what it printed, and the trees after it. */
function show(step) {
  view.step = Math.min(Math.max(step, 0), story.steps.length - 1);
  view.changes = changesOf(view.step);
  goTo(view.step);
  drawStep();
  drawTrees();
  drawBoxes();
  drawNode();
  markLine();
  markQueries();
  byId("step").value = view.step;
  byId("place").textContent = `${view.step + 1} of ${story.steps.length}`;
  byId("step").setAttribute("aria-valuetext", `${view.step + 1} of ${story.steps.length}: ${story.steps[view.step].told}`);
  setButtons();
}

function setButtons() {
  const atFirst = view.step === 0, atLast = view.step === story.steps.length - 1;
  const disabled = {
    first: atFirst, previous: atFirst, "previous-update": updateFrom(-1) === view.step,
    next: atLast, last: atLast, "next-update": updateFrom(1) === view.step,
  };
  for (const [id, off] of Object.entries(disabled)) byId(id).setAttribute("aria-disabled", String(off));
}

/** The next step that way in which a copy changes, or this one. */
function updateFrom(way) {
  for (let at = view.step + way; at >= 0 && at < story.steps.length; at += way) {
    if (isUpdate(story.steps[at])) return at;
  }
  return view.step;
}

function start() {
  drawLine();
  drawQueries();
  byId("step").max = story.steps.length - 1;
  byId("step").addEventListener("input", event => show(Number(event.target.value)));
  const goals = {
    first: () => 0, previous: () => view.step - 1, "previous-update": () => updateFrom(-1),
    next: () => view.step + 1, "next-update": () => updateFrom(1), last: () => story.steps.length - 1,
  };
  for (const [id, goal] of Object.entries(goals)) byId(id).addEventListener("click", () => show(goal()));
  byId("line").addEventListener("keydown", event => {
    const steps = { ArrowLeft: view.step - 1, ArrowRight: view.step + 1, Home: 0, End: story.steps.length - 1 };
    if (!(event.key in steps)) return;
    event.preventDefault();
    show(steps[event.key]);
  });
  for (const radio of document.getElementsByName("side")) {
    radio.addEventListener("change", () => {
      view.side = radio.value;
      show(view.step);
    });
  }
  byId("whole").addEventListener("change", drawBoxes);
  byId("boxes").addEventListener("click", chooseAt);
  window.addEventListener("resize", drawBoxes);
  matchMedia("(prefers-color-scheme: dark)").addEventListener("change", drawBoxes);
  show(startStep());
}

/** The page's own address may name a step behind #, from 1; else the first update is shown. */
function startStep() {
  const named = Number(location.hash.slice(1));
  return named >= 1 ? named - 1 : updateFrom(1);
}

start();
