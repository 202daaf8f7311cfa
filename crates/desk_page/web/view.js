// Drawing. What is drawn is changed in place, so that focus, scrolling and what is typed stay.
import { MUSIC, lines } from "./lines.js";
import { labelled } from "./overview.js";
import { gainInWords } from "./levels.js";
import { PLOT_HEIGHT, PLOT_WIDTH } from "./plots.js";
import { wayWords } from "./history.js";
import { fate } from "./rows.js";

export function at(id) { return document.getElementById(id); }

// An element with attributes, and children behind one another. `line` is the line that a click sends.
export function el(tag, props, ...children) {
  const node = document.createElement(tag);
  for (const [name, value] of Object.entries(props ?? {})) {
    if (value === null || value === undefined || value === false) continue;
    node.setAttribute(name, value === true ? "" : value);
  }
  node.append(...children.flat().filter((child) => child !== null && child !== undefined && child !== ""));
  return node;
}
export const soft = (...text) => el("span", { class: "soft" }, ...text);
export const code = (text) => el("code", {}, text);
// A name may run from right to left, so that it stands by itself.
export const bdi = (text) => el("bdi", {}, text);

// The controls that were pressed and have no answer yet, by their keys: each with its line, and the version as which it
// was accepted, or 0.
export const waits = new Map();
const busy = (key) => (waits.has(key) ? "true" : null);

// A button that sends a line, which it shows when it is pointed at or reached by Tab. `what` tells its object. A button
// that has another line after it was pressed keeps its key.
function sends(text, line, what, kind = "", key = line) {
  return el("button", { type: "button", class: `small ${kind}`, title: line, "data-key": key, "data-line": line,
    "aria-label": `${text} ${what}`, "aria-busy": busy(key) }, text);
}
// A button that the page acts on itself.
export function does(text, act, of, what, more = {}) {
  return el("button", { type: "button", class: "small", "data-key": `${act} ${of}`, "data-act": act, "data-of": of,
    "aria-label": `${text} ${what}`, "aria-busy": busy(`${act} ${of}`), ...more }, text);
}
// A choice that sends the line `PREFIX CHOSEN`, or hands what is chosen to an act. It is filled once it is opened.
export function chooses(text, what, key, more) {
  return el("select", { class: "small", "aria-label": `${text} ${what}`, "data-key": key, "data-choice": key, ...more },
    el("option", { value: "" }, text));
}

// The sliders that an operator holds, or moved by a key just now, by their keys: the gain that each had then, and the
// one that was sent. One that another operator has changed meanwhile is lost, and follows the desk.
export const touched = new Map();
const isBusy = (node) => (node.type === "range" ? touched.get(node.dataset.key)?.isLost === false :
  node === document.activeElement);

// Makes a node look like another one, and keeps all of it that is so already.
export function morph(node, next) {
  if (node.nodeType === Node.TEXT_NODE) {
    if (node.data !== next.data) node.data = next.data;
    return;
  }
  for (const { name } of [...node.attributes]) if (!next.hasAttribute(name)) node.removeAttribute(name);
  for (const { name, value } of next.attributes) if (node.getAttribute(name) !== value) node.setAttribute(name, value);
  if (node.tagName === "INPUT") {
    if (!isBusy(node) && node.type === "range") node.value = next.value;
    if (node.type === "checkbox") node.checked = next.checked;
  }
  // What a list has drawn into a node is the list's.
  if (!node.drawn && (node.tagName !== "SELECT" || !isBusy(node))) morphChildren(node, [...next.childNodes]);
}
const keyOf = (node) => node.dataset?.key ?? node.id ?? "";
const isLike = (node, next) => node.nodeName === next.nodeName && keyOf(node) === keyOf(next);
export function morphChildren(node, nexts) {
  const keys = new Set(nexts.map(keyOf).filter((key) => key));
  for (const child of [...node.childNodes]) if (keyOf(child) && !keys.has(keyOf(child))) child.remove();
  let place = node.firstChild;
  for (const next of nexts) {
    if (place && isLike(place, next)) {
      morph(place, next);
      place = place.nextSibling;
    } else {
      node.insertBefore(next, place);
      if (place && !keyOf(place) && !keyOf(next)) {
        const gone = place;
        place = place.nextSibling;
        gone.remove();
      }
    }
  }
  while (place) {
    const gone = place;
    place = place.nextSibling;
    gone.remove();
  }
}

// Draws a list into a node: each item with its key and a model. An item whose model is as before isn't drawn again, nor
// is one that is known to be kept.
export function drawList(node, items, draw) {
  const known = node.drawn ?? new Map(), drawn = new Map();
  const keys = new Set(items.map((item) => item.key));
  for (const [key, entry] of known) if (!keys.has(key)) entry.node.remove();
  let place = node.firstElementChild;
  for (const item of items) {
    let entry = known.get(item.key);
    const look = item.isKept && entry ? entry.look : JSON.stringify(item.model);
    if (!entry) entry = { node: draw(item), look, figures: item.figures };
    else if (entry.look !== look) {
      morph(entry.node, draw(item));
      Object.assign(entry, { look, figures: item.figures });
    }
    if (item.model) entry.model = item.model;
    if (entry.node === place) place = place.nextElementSibling;
    else node.insertBefore(entry.node, place);
    drawn.set(item.key, entry);
  }
  node.drawn = drawn;
  return drawn;
}

// A name and the number behind it, or what it is and the number.
function titled(name, kind, number) {
  return name ? [bdi(name), soft(` ${kind} ${number}`)] : [`${kind} ${number}`];
}
export const spoken = (name, kind, number) => (name ? `${name} ${kind} ${number}` : `${kind} ${number}`);

// A room of the overview: its head, and a list for its members. All of the head has its place, whatever is said there.
function roomHead(model) {
  const { room, name, isFolded, floor, pin, left, tally } = model, what = spoken(name, "room", room);
  const off = left ? { "aria-disabled": "true" } : {};
  const many = `${model.members} member${model.members === 1 ? "" : "s"}`;
  const kinds = [["silent", "warn"], ["losing", "bad"], ["speaking", "good"], ["muted", ""]];
  const counts = kinds.flatMap(([key, kind]) => (tally[key] ?
    [", ", el("b", { class: kind }, `${tally[key]} ${key}`)] : []));
  return el("div", { class: `head${model.odd ? " odd" : ""}${left ? " left" : ""}` },
    el("button", { type: "button", class: "fold", "data-act": "fold", "data-of": room, "data-key": `fold ${room}`,
      "aria-expanded": String(!isFolded), "aria-label": `${isFolded ? "Unfold" : "Fold"} ${what}`, ...off },
      isFolded ? "\u25b8" : "\u25be"),
    el("h3", { id: `room-${room}` }, ...titled(name, "room", room)),
    el("span", { class: "soft count" }, model.music ? el("span", { class: "rate" }, `${MUSIC} Hz`) : "",
      model.music ? ", " : "", left || many, ...(left ? [] : counts)),
    el("span", { class: "held" },
      pin ? el("span", { class: "tag", title: `${pin.label} is pinned` }, bdi(pin.label), " is pinned") : "",
      pin && !left ? sends("Unpin", lines.unpin(room), `${pin.label} in ${what}`) : ""),
    el("span", { class: "held" },
      floor ? el("span", { class: `tag${model.odd ? " bad" : ""}`, title: `floor: ${floor.label}` }, "floor: ",
        bdi(floor.label), model.odd ? ", muted" : "") : "",
      floor && !left ? sends("Take floor", lines.takeFloor(room), `from ${floor.label} in ${what}`) : ""),
    does("Name", "name", `room ${room}`, what, { class: "small quiet", ...off }),
    does("Remove", "remove-room", room, what,
      { class: "small danger quiet", title: lines.removeRoom(room), ...off }));
}
export function roomCard({ model }) {
  const { room, name, isFolded, isEmpty } = model;
  return el("section", { class: "room", "data-room": room, "data-key": `room ${room}`,
    "aria-labelledby": `room-${room}` }, roomHead(model),
    el("div", { class: "members", role: "list", "data-key": `members ${room}`, hidden: isFolded && isEmpty,
      "aria-label": `Members of ${spoken(name, "room", room)}` }));
}

// The line of a figure over two minutes. Its words are the figure's own.
const DRAWN = "http://www.w3.org/2000/svg";
function plotOf(path) {
  const plot = document.createElementNS(DRAWN, "svg"), line = document.createElementNS(DRAWN, "path");
  for (const [name, value] of [["viewBox", `0 0 ${PLOT_WIDTH} ${PLOT_HEIGHT}`], ["preserveAspectRatio", "none"],
    ["class", "plot"], ["aria-hidden", "true"]]) plot.setAttribute(name, value);
  line.setAttribute("d", path);
  plot.append(line);
  return plot;
}

// The panel of one member. Each thing has its buttons at the right, in places of their own.
function gainRow(member, who, { ssrc, gain, label, hasLeft }) {
  const line = lines.setGain(member, ssrc, ""), off = hasLeft ? { disabled: true } : {};
  return el("div", { class: `row slider${hasLeft ? " left" : ""}`, "data-key": `gain row ${ssrc}` },
    el("span", { class: "what" }, bdi(label), soft(` ${gainInWords(gain)}`)),
    el("input", { type: "range", min: 0, max: 1024, step: 32, value: gain, "data-key": `gain ${member} ${ssrc}`,
      "data-gain": line, "aria-label": `Gain of ${label} for ${who}`, "aria-valuetext": gainInWords(gain),
      title: `${line}${gain}`, ...off }),
    sends("Reset", lines.setGain(member, ssrc, 256), `the gain of ${label} for ${who}`));
}
function sourceRow(room, source) {
  const { ssrc, kind, muted, name, isPinned, count, hasLeft } = source;
  const what = `${kind} ${labelled(name, ssrc)}`, isVideo = kind === "video";
  const pin = isPinned ? sends("Unpin", lines.unpin(room), what, "", `pin-of ${ssrc}`) :
    sends("Pin", lines.pin(room, ssrc), what, "", `pin-of ${ssrc}`);
  return el("div", { class: `row${hasLeft ? " left" : ""}`, "data-key": `source row ${ssrc}` },
    el("span", { title: what, class: `what source${muted ? " muted" : ""}${fate(source).mark}`, "data-source": ssrc,
      draggable: isVideo && !hasLeft ? "true" : null }, `${kind} `, bdi(labelled(name, ssrc))),
    el("span", { class: "acts" },
      muted ? sends("Unmute", lines.unmute(ssrc), what, "", `mute-of ${ssrc}`) :
        sends("Mute", lines.mute(ssrc), what, "", `mute-of ${ssrc}`),
      isVideo ? pin : "",
      does("Name", "name", `source ${ssrc}`, what),
      sends("Remove", lines.removeSource(ssrc), what, "danger")),
    count ? el("span", { class: "soft counted" }, count) : "");
}
function slotRow({ slot, index, source, label, by: rule, why, isSubscribed, hasLeft, count }) {
  const word = { sub: "subscribed", pin: "by the pin", floor: "by the floor" }[rule];
  return el("div", { class: `row slot${hasLeft ? " left" : ""}`, "data-slot": slot, "data-key": `slot row ${slot}` },
    el("span", { class: "what" }, `slot ${index} `, soft(`(${slot}): `),
      ...(source === null ? [soft(`nothing, ${why}`)] : [bdi(label), soft(` ${word}`)])),
    el("span", { class: "acts" },
      isSubscribed ? sends("Unsubscribe", lines.unsubscribe(slot), `slot ${slot}`) : "",
      chooses("Subscribe", `slot ${slot}`, `subscribe ${slot}`),
      sends("Remove", lines.removeSlot(slot), `slot ${slot}`, "danger")),
    count ? el("span", { class: "soft counted" }, count) : "");
}
export function detailPanel(model) {
  const { member, name, room, roomLabel, left } = model, who = spoken(name, "member", member);
  const part = (title, rows, none) => [el("h3", { "data-key": title }, title), ...(rows.length ? rows : [soft(none)])];
  return el("section", { id: "detail", class: left ? "left" : null, "aria-labelledby": "detail-title",
    "data-member-open": member },
    el("div", { class: "title" }, el("h2", { id: "detail-title" }, ...titled(name, "member", member)),
      does("Name", "name", `member ${member}`, who), does("Close", "close", member, who)),
    el("div", { class: "soft address" }, "in ", bdi(roomLabel), `, ${model.address} ${model.codec}, mix ${model.mix}`,
      left ? `, ${left}` : ""),
    el("p", { class: "soft told", title: model.told }, model.told),
    el("dl", { class: "figures" }, ...model.figures.flatMap(([what, text, kind, title, path]) =>
      [el("dt", {}, what), el("dd", { class: kind || null, title: title || null }, text, plotOf(path))])),
    el("div", { class: "acts" },
      model.floor ? sends("Take floor", lines.takeFloor(room), `from ${who}`, "", `floor-of ${member}`) :
        sends("Give floor", lines.giveFloor(room, member), `to ${who}`, "", `floor-of ${member}`),
      chooses("Move to room", who, `move-member ${member}`),
      model.others ? does("Mute all others", "mute-others", member, `of the room of ${who}`) : "",
      sends("Remove", lines.removeMember(member), who, "danger")),
    ...part("Sends", model.sources.map((s) => sourceRow(room, s)), "nothing"),
    ...part("Sees", model.slots.map(slotRow), "it has no slot"),
    ...part("Hears", model.gains.map((g) => gainRow(member, who, g)), "all at their own level"),
    model.mixed ? el("div", { class: "soft counted" }, `its mix: ${model.mixed}`) : "",
    model.hears ? chooses("Set gain of", `for ${who}`, `gain-of ${member}`) : "");
}

// An unknown sender, and a button that fills in the form to add it.
export function strangerItem({ model: { address, ssrc, type, packets, member, isElsewhere, hasLeft } }) {
  const whose = member === null ? "no member has this address" : `the address of member ${member}`;
  const known = isElsewhere ? `source ${ssrc} is declared at another address` : whose;
  return el("li", { class: hasLeft ? "left" : null }, `${address} `,
    soft(`SSRC ${ssrc}, type ${type}, ${packets} packets, ${known}`), " ",
    isElsewhere || hasLeft ? "" : does("Add as a source", "take-stranger", ssrc, `${ssrc} from ${address}`));
}

// A call of the history, and below the one that is clicked how it is taken back alone, and what leads to it.
export function callItem({ model: { number, when, who, text, isUndone, isWalked, isOnWay, way, revert, hasLeft } }) {
  return el("li", { class: `${isUndone ? "undone" : ""}${isOnWay ? " way" : ""}${hasLeft ? " left" : ""}` },
    el("button", { type: "button", class: "call", "data-act": "walk", "data-of": number, "data-key": `walk ${number}`,
      "aria-label": `${text} version ${number}`, "aria-expanded": String(isWalked) }, code(text)),
    soft(`${isUndone ? "undone, " : ""}${when}${who}, version ${number}`),
    isWalked ? el("div", { class: "row" }, revert ? revertButton(number, who, revert) : "",
      el("span", { class: "soft grow" }, way.text),
      way.count ? does(way.label, "go", number, `to the desk behind version ${number}`) : "") : "");
}
// Takes one call back, and disturbs nobody. Of a long call the beginning is shown, and whose it is.
function revertButton(number, who, what) {
  const line = lines.revert(number), whose = `, by ${who}`;
  return el("button", { type: "button", class: "small revert", title: line, "data-key": line, "data-line": line,
    "data-act": "revert", "data-of": number, "aria-label": `Revert: ${what}${whose}, version ${number}`,
    "aria-busy": busy(line) }, el("span", {}, `Revert: ${what}`), whose);
}
export function wayOf(way) {
  const count = way.calls.length, word = way.word === "undo" ? "Undo" : "Redo";
  return { text: wayWords(way, count === 0), count, label: count > 1 ? `${word} these ${count}` : word };
}
