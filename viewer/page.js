"use strict";
// Moves the picture from step to step, by the changes that the page holds; zooms; finds and chooses switches.

const data = JSON.parse(document.getElementById("data").textContent);
const byId = (id) => document.getElementById(id);
const picture = byId("picture"), slider = byId("slider");
const values = data.slots.map(([, , first]) => data.texts[first]);
const SEE = " – see the verdict";
let now = 0, chosen = null, playing = null;

// --- Slots and steps

// Shows the value of a slot in its element, if it has one.
function show(slot) {
  const [id, what] = data.slots[slot], element = byId(id);
  if (!element) return;
  if (what === "class") element.setAttribute("class", values[slot]);
  else if (what === "text") element.textContent = values[slot];
  else retitle(element, values[slot]);
}

// Gives an element the words for those who hover over it or hear it.
function retitle(element, words) {
  element.querySelector("title").textContent = words;
  if (element.hasAttribute("aria-label")) element.setAttribute("aria-label", words);
}

// Goes to the place after so many steps, forward or backward.
function go(to) {
  to = Math.max(0, Math.min(data.steps.length, to));
  const touched = new Set();
  const put = (slot, text) => { values[slot] = data.texts[text]; touched.add(slot); };
  while (now < to) for (const [slot, , text] of data.steps[now++][4]) put(slot, text);
  while (now > to) for (const [slot, text] of data.steps[--now][4]) put(slot, text);
  touched.forEach(show);
  tell();
  mark();
}

// Says where the slider is, and what the step was.
function tell() {
  const [says, , place, tick] = now ? data.steps[now - 1] : ["Before the first step.", "", 0, null];
  const event = data.strip && now ? ` · event ${place}` : "";
  byId("says").textContent = says;
  byId("where").textContent = `step ${now} of ${data.steps.length}${event}${tick === null ? "" : ` · tick ${tick}`}`;
  slider.value = now;
  listSteps();
  slider.setAttribute("aria-valuetext", says);
  if (!data.strip) return;
  const x = data.strip[0] + data.strip[1] * place / data.strip[2];
  byId("cursor").setAttribute("x1", x);
  byId("cursor").setAttribute("x2", x);
}

// The kinds of steps that `change` goes to, for each word of the list.
const KINDS = {
  "all but ports and hops": ["join", "load", "fail", "repair", "restart", "spent", "packet", "lost", "flood", "arrive"],
  "an epoch": ["join", "finish", "spent"],
  "a table": ["load"],
  "a cable or switch": ["fail", "repair", "restart"],
  "a packet": ["packet", "move", "arrive", "local", "unjoined"],
  "a frame lost": ["lost"],
  "a port": ["port", "noframe"],
  "a broadcast": ["flood"],
};

// Goes to the next step of the chosen kind, in a direction; at the end of them stays.
function change(direction) {
  const kinds = KINDS[byId("kind").value] || [];
  for (let k = now + direction; k >= 1 && k <= data.steps.length; k += direction)
    if (kinds.includes(data.steps[k - 1][1])) return go(k);
}

function play() {
  if (playing) { clearInterval(playing); playing = null; }
  else {
    if (now === data.steps.length) go(0);
    playing = setInterval(() => { go(now + 1); if (now === data.steps.length) play(); }, 450);
  }
  byId("play").textContent = playing ? "■ stop" : "▶ play";
}

// --- Choosing and finding

// Chooses a switch, or none: its links, ports and facts are shown.
function choose(name) {
  chosen = name;
  mark();
}

// Shows what belongs to the chosen switch: a ring around its box, which stays as it is; its links and their ports.
function mark() {
  picture.querySelectorAll(".chosen").forEach((element) => element.classList.remove("chosen"));
  picture.querySelectorAll(".ring").forEach((element) => element.remove());
  picture.classList.toggle("choosing", chosen !== null);
  byId("chosen-words").textContent = "No switch is chosen.";
  byId("chosen-facts").textContent = "";
  if (chosen === null) return;
  const add = (id) => byId(id) && byId(id).classList.add("chosen");
  picture.append(ring(byId(`switch-${chosen}`).querySelector("rect")));
  data.links.forEach(([one, other], k) => {
    if (one[0] !== chosen && other[0] !== chosen) return;
    [`link-${k}`, `port-${one[0]}-${one[1]}`, `port-${other[0]}-${other[1]}`].forEach(add);
  });
  byId("chosen-words").textContent = byId(`switch-${chosen}`).getAttribute("aria-label");
  byId("chosen-facts").append(...facts(chosen));
  const about = byId("chosen-facts").querySelector(".marked");
  byId("chosen-facts").scrollTop = about ? about.offsetTop - byId("chosen-facts").offsetTop - 40 : 0;
}

// A ring around a box.
function ring(box) {
  const found = box.cloneNode(), sides = { x: -7, y: -7, width: 14, height: 14, rx: 5 };
  for (const side in sides) found.setAttribute(side, Number(box.getAttribute(side)) + sides[side]);
  found.setAttribute("class", "ring");
  return found;
}

// An element with words or further elements in it.
function made(kind, ...inner) {
  const found = document.createElement(kind);
  found.append(...inner);
  return found;
}

// A list with these words, of which those that the verdict is about stand out.
function list(lines) {
  const found = made("ul", ...lines.map((line) => made("li", line)));
  lines.forEach((line, k) => found.children[k].classList.toggle("marked", line.endsWith(SEE)));
  return found;
}

// What is told of a switch: its ports, and its rows where they are known, in words and as they were printed.
function facts(name) {
  const ports = [...picture.querySelectorAll(`[id^="port-${name}-"] > title`)].map((title) => title.textContent);
  const number = (words) => Number(words.match(/\d+/)[0]);
  const told = (what) => values[data.slots.findIndex(([id]) => id === `${what}-${name}`)] || "";
  const found = ports.length ? [made("h3", "Ports"), list(ports.sort((a, b) => number(a) - number(b)))] : [];
  if (told("more")) found.push(made("h3", "Ports to what is not drawn"), list(told("more").split("\n")));
  const rows = told("rows"), printed = /^\d/.test(rows);
  if (rows) found.push(made("h3", "Rows: where it sends what comes in"));
  if (rows && !printed) found.push(made("p", rows));
  if (printed) found.push(...entries(name, rows, told("names")));
  if (printed) found.push(made("details", made("summary", "As printed: entry, then number:exits"), made("pre", rows)));
  return found;
}

// The rows of a switch in words, entry by entry: those that are printed, and those of its hosts and links that have
// none.
function entries(name, rows, names) {
  const printed = new Map(rows.split("\n").map((line) => [Number(line.split(" ")[0]), line.split(" ").slice(1)]));
  const linked = data.links.flat().filter(([at]) => at === name).map(([, port]) => port);
  const all = [...new Set([0, ...printed.keys(), ...linked])].sort((a, b) => a - b);
  return all.flatMap((entry) => [made("h4", cameIn(name, entry)), targets(name, entry, printed.get(entry), names)]);
}

// What comes in at an entry: from whom, and where.
function cameIn(name, entry) {
  if (entry === 0) return "From its own hosts:";
  const link = data.links.find((ends) => ends.some(([at, port]) => at === name && port === entry));
  const far = link && (link[0][0] === name && link[0][1] === entry ? link[1] : link[0]);
  const host = data.hosts.find(([, at, port]) => at === name && port === entry);
  return `By port ${entry}, ${far ? `from ${far[0]}` : host ? `from host ${host[0]}` : "which has no link"}:`;
}

// Where a row sends what is for whom: the targets with the same exits together, those without any last. The verdict
// may be about one of them.
function targets(name, entry, pairs, names) {
  const about = data.marked.filter(([at, of]) => at === name && of === entry).map(([, , to]) => to);
  if (!pairs) return list([`nowhere: there is no row${about.length ? SEE : ""}`]);
  const words = names.split(" "), called = {}, ways = new Map();
  for (let k = 0; k + 1 < words.length; k += 2) called[words[k]] = words[k + 1];
  const others = Object.keys(called).filter((number) => called[number].split(".")[0] !== name);
  const exits = new Map(others.map((number) => [number, "-"]));
  for (const pair of pairs) exits.set(...pair.split(":"));
  for (const number of [...exits.keys()].sort((a, b) => a - b)) {
    const way = exits.get(number) + (about.includes(number) ? SEE : "");
    ways.set(way, [...(ways.get(way) || []), called[number] ? `${called[number]} (no. ${number})` : `no. ${number}`]);
  }
  const last = ways.get("-");
  if (last) { ways.delete("-"); ways.set("-", last); }
  if (!ways.size) return list(["nowhere: the row is empty"]);
  return list([...ways].map(([way, whom]) => `${whom.join(", ")}: ${leaves(way)}`));
}

// By which ports something leaves.
function leaves(way) {
  const exits = way.replace(SEE, ""), ports = exits.split("/").join(" or ");
  return (exits === "-" || !exits ? "nowhere" : `by port ${ports}`) + (way === exits ? "" : SEE);
}

// Chooses the switch of this name, and brings it into the frame; else says, of a whole name, why there is none. A
// name is whole if no other one goes on as it does.
function find(label, isWhole = !Object.keys(data.switches).some((name) => name.startsWith(label))) {
  const name = Object.hasOwn(data.switches, label) ? data.switches[label] : undefined;
  byId("found").textContent = name === undefined && isWhole && label ? missing(label) : "";
  if (name === undefined) return;
  choose(name);
  bring(byId(`switch-${name}`).querySelector("rect").getBBox());
}

// Why no switch of this name can be chosen.
function missing(label) {
  return data.undrawn.includes(label) ? `${label} is a switch that is not drawn here.` : `No switch is named ${label}.`;
}

// Brings a box into the frame. A picture that fits into it stays as it is, or is shown whole; of a larger one a part
// is shown that has the box in its middle, or near an end of the picture.
function bring(box) {
  const share = Math.min(1, 900 / Math.max(whole[2], whole[3]));
  const middle = [box.x + box.width / 2, box.y + box.height / 2];
  if (share === 1) {
    const seen = middle.every((at, k) => view[k] < at && at < view[k] + view[k + 2]);
    return seen ? undefined : look(whole[0], whole[1], 1);
  }
  const corner = middle.map((at, k) => {
    const most = whole[k] + whole[k + 2] * (1 - share);
    return Math.max(whole[k], Math.min(most, at - whole[k + 2] * share / 2));
  });
  look(...corner, share);
}

// --- Zoom

const whole = picture.getAttribute("viewBox").split(" ").map(Number);
let view = whole.slice();

// Shows the part of the picture from this corner on, of this share of the whole.
function look(x, y, share) {
  view = [x, y, whole[2] * share, whole[3] * share];
  picture.setAttribute("viewBox", view.join(" "));
  const wide = picture.getBoundingClientRect().width || 1000;
  picture.classList.toggle("near", Math.max(view[2] / wide, view[3] / (0.62 * wide)) < 1.3);
}

// Zooms by a factor about a point, which stays where it is.
function zoom(factor, x = view[0] + view[2] / 2, y = view[1] + view[3] / 2) {
  const share = Math.max(0.02, Math.min(2, (view[2] / whole[2]) * factor)), by = share * whole[2] / view[2];
  look(x - (x - view[0]) * by, y - (y - view[1]) * by, share);
}

// The point of the picture under the pointer.
function under(event) {
  return new DOMPoint(event.clientX, event.clientY).matrixTransform(picture.getScreenCTM().inverse());
}

function drag(event) {
  const from = under(event);
  let moved = false;
  const move = (next) => {
    const to = under(next);
    moved = moved || Math.hypot(to.x - from.x, to.y - from.y) > view[2] / 200;
    if (moved) look(view[0] + from.x - to.x, view[1] + from.y - to.y, view[2] / whole[2]);
  };
  const end = () => {
    picture.removeEventListener("pointermove", move);
    if (!moved) choose(switchOf(event.target));
  };
  picture.addEventListener("pointermove", move);
  window.addEventListener("pointerup", end, { once: true });
}

// The switch to which an element of the picture belongs, or null.
function switchOf(element) {
  const group = element.closest("[id^=switch-]");
  return group && group.id.match(/^switch-(.+?)(-[23])?$/)[1];
}

// --- Keys and buttons

const KEYS = {
  ArrowRight: () => go(now + 1), ArrowLeft: () => go(now - 1), Home: () => go(0), End: () => go(data.steps.length),
  n: () => change(1), p: () => change(-1), " ": play, "+": () => zoom(0.8), "-": () => zoom(1.25),
  "0": () => look(whole[0], whole[1], 1), "/": () => byId("search").focus(),
  Enter: () => choose(switchOf(document.activeElement)),
};

function key(event) {
  const typed = event.target.closest("input:not([type=range]),select,button") && event.key !== "Escape";
  if (typed || event.ctrlKey || event.metaKey || event.altKey || !KEYS[event.key]) return;
  event.preventDefault();
  KEYS[event.key]();
}

function listen() {
  const click = { back: KEYS.ArrowLeft, on: KEYS.ArrowRight, play, "last-change": KEYS.p, "next-change": KEYS.n,
    closer: KEYS["+"], wider: KEYS["-"], whole: KEYS["0"] };
  for (const id in click) byId(id).addEventListener("click", click[id]);
  document.addEventListener("keydown", key);
  slider.addEventListener("input", () => go(Number(slider.value)));
  byId("search").addEventListener("input", (event) => find(event.target.value));
  byId("search").addEventListener("change", (event) => find(event.target.value, true));
  picture.addEventListener("pointerdown", drag);
  picture.addEventListener("wheel", (event) => {
    event.preventDefault();
    const { x, y } = under(event);
    zoom(event.deltaY > 0 ? 1.15 : 0.87, x, y);
  }, { passive: false });
  window.addEventListener("hashchange", start);
  byId("all").addEventListener("toggle", listSteps);
  if (data.strip) byId("strip").addEventListener("click", goToEvent);
}

// Goes to the last step that is told of an event up to the one under the pointer, or of that of a mark.
function goToEvent(event) {
  const strip = byId("strip"), [left, wide, last] = data.strip;
  const { x } = new DOMPoint(event.clientX, event.clientY).matrixTransform(strip.getScreenCTM().inverse());
  const mark = event.target.closest("[data-place]");
  const place = mark ? Number(mark.dataset.place) : (x - left) / wide * last;
  go(data.steps.filter((step) => step[2] <= place).length);
}

// Fills the list of all steps when it is opened, and brings the present one into it.
function listSteps() {
  const steps = byId("steps");
  if (!byId("all").open) return;
  if (!steps.children.length) steps.append(...data.steps.map(([says, , place], k) => {
    const button = made("button", data.strip ? `${says} (event ${place})` : says);
    button.addEventListener("click", () => go(k + 1));
    return made("li", button);
  }));
  steps.querySelectorAll(".now").forEach((line) => line.classList.remove("now"));
  if (!now) return;
  const line = steps.children[now - 1];
  line.firstChild.classList.add("now");
  steps.scrollTop = line.offsetTop - steps.offsetTop - 80;
}

// The list of kinds has those of which there is a step.
function offerKinds() {
  for (const word in KINDS)
    if (data.steps.some(([, kind]) => KINDS[word].includes(kind))) byId("kind").add(new Option(word, word));
}

// `page.html#57` begins after 57 steps, `page.html#57,A` with the switch A chosen too.
function start() {
  const [step, name] = decodeURIComponent(location.hash.slice(1)).split(",");
  if (name) find(name, true);
  go(Number(step) || 0);
}

offerKinds();
listen();
look(whole[0], whole[1], 1);
start();
