// What stands where: the rooms, their members, and the numbers of the whole bridge.
import { memberOf, membersIn } from "./lines.js";
import { labelled, memberLine, nameOf, overview, roomLine, wordsOf } from "./overview.js";
import { UNKNOWN, figuresOf, isLossy, isSilent, strangersIn } from "./stats.js";
import { SETTLED, inOldPlaces, isCounted, placeChanges, tallyOf, troubleOf } from "./rules.js";
import { MARKED, desk, drag, filter, freshAt, heldAside, here, names, opened, orderedAt, picked, set,
  stats } from "./known.js";
import { at, drawList, el, morphChildren, roomCard } from "./view.js";
import { memberRow } from "./rows.js";
import { isFolded } from "./page.js";
import { render } from "./drawing.js";

// Places. Nothing comes, goes or moves in the list or beside it while the pointer is there, a button is held, or a menu
// is open, and until 600 ms after a touch. What a row says changes at once.
const over = { board: false, aside: false }, TOUCH = 600;
let down = null, heldBack = 0, drawnPlan = [], drawnSum = "";
let order = new Map(), spoke = new Set();
export const lastFit = new Map();
const isMenuOpen = () => CSS.supports("selector(:open)") && document.querySelector("select:open") !== null;
export function isHeld(part) { return over[part] || down === part || drag !== null || isMenuOpen(); }
function releases() {
  down = null;
  if (heldBack > 0 || heldAside) render();
}
for (const part of ["board", "aside"]) {
  at(part).addEventListener("pointerenter", ({ pointerType }) => { over[part] = pointerType === "mouse"; });
  at(part).addEventListener("pointerleave", () => {
    over[part] = false;
    if (down !== part) releases();
  });
  at(part).addEventListener("pointerdown", () => { down = part; });
}
for (const type of ["pointerup", "pointercancel", "dragend"]) {
  document.addEventListener(type, ({ pointerType }) => {
    if (down) setTimeout(releases, pointerType === "mouse" || type === "dragend" ? 0 : TOUCH);
  });
}
at("waiting").addEventListener("click", () => render(null, true, true));

// Tells how many changes of place are held back.
export function tellHeld() {
  const count = heldBack + Number(heldAside), what = `change${count === 1 ? "" : "s"} of place held back: show now`;
  const text = count ? `${count} ${what}` : "";
  if (at("waiting").textContent !== text) at("waiting").textContent = text;
  at("waiting").hidden = count === 0;
}

// Draws a list beside the overview: while places are held, what was drawn before stays where it is.
export function drawHeld(node, items, draw) {
  const old = [...(node.drawn ?? [])].map(([key, { model }]) => ({ key, model }));
  const isSame = old.map(({ key }) => key).join() === items.map(({ key }) => key).join();
  if (isSame || old.length === 0 || !isHeld("aside")) return drawList(node, items, draw);
  set.heldAside(true);
  const kept = inOldPlaces(old, items, "key");
  return drawList(node, kept.map(({ key, model, hasLeft }) => ({ key, model: { ...model, hasLeft } })), draw);
}

// What is counted of a room, and who of it is in trouble, until something of it changes.
export const infos = new Map();
export function infoOf(room) {
  if (!infos.has(room)) {
    const members = membersIn(desk, room);
    const troubled = members.filter((one) => troubleOf(desk, stats, one) !== "").map(({ member }) => member);
    infos.set(room, { tally: tallyOf(desk, stats, members), troubled });
  }
  return infos.get(room);
}
// Whether a member is one of those that are counted. Who ceases to be one stays for some seconds.
function isShown(member) {
  const now = performance.now();
  if (isCounted(desk, stats, filter, member)) lastFit.set(member.member, now);
  return now - (lastFit.get(member.member) ?? -Infinity) < SETTLED;
}
// The rooms by trouble, or by who speaks. Their order is made anew every few seconds at most.
function sortRooms(isAsked) {
  if (!isAsked && order.size > 0 && (performance.now() - orderedAt < SETTLED || isHeld("board"))) return;
  const key = at("sort").value === "speaking" ? "speaking" : "weight", weight = (room) => infoOf(room).tally[key];
  const rooms = [...desk.rooms].sort((a, b) => weight(b) - weight(a) || a - b);
  order = new Map(rooms.map((room, place) => [room, place]));
  spoke = new Set(key === "weight" ? [] : desk.members.filter((one) => isCounted(desk, stats, key, one))
    .map(({ member }) => member));
  set.orderedAt(performance.now());
}
const placeOf = (room) => order.get(room) ?? Number.MAX_SAFE_INTEGER;
// Where rooms are by who speaks, their members are.
const bySpeech = (members) => (spoke.size === 0 ? members :
  [...members.filter((one) => spoke.has(one)), ...members.filter((one) => !spoke.has(one))]);

// What should be drawn: each room, and of a folded one those in trouble, and who speaks where the order is by that.
function planOf(isNarrowed) {
  const found = overview(desk, names, at("search").value, at("sort").value, filter ? isShown : null, placeOf);
  return found.map(({ room, members }) => {
    const isClosed = !isNarrowed && isFolded(room), { troubled } = infoOf(room);
    const isBrief = isClosed && spoke.size === 0, all = isBrief ? troubled : members.map(({ member }) => member);
    const shown = isClosed && !isBrief ? all.filter((one) => spoke.has(one) || troubled.includes(one)) : all;
    return { room, isClosed, members: bySpeech(shown) };
  });
}

// About how high a member and the head of a room are, for rooms that aren't drawn since nobody sees them, in pixels.
const ROW_HEIGHT = 25, HEAD_HEIGHT = 34;
// The overview. Where only some rooms have changed, the others stay as they are drawn. What an operator asks for of the
// list itself, such as a search, is done at once.
export function renderRooms(changed, isAsked) {
  const isNarrowed = wordsOf(at("search").value).length > 0 || filter !== "";
  sortRooms(isAsked);
  const next = planOf(isNarrowed), moved = placeChanges(drawnPlan, next);
  const isKept = moved > 0 && drawnPlan.length > 0 && !isAsked && isHeld("board"), plan = isKept ? drawnPlan : next;
  if (moved > 0 && drawnPlan.length > 0 && !isKept && (!isAsked || heldBack > 0)) set.movedAt(performance.now());
  heldBack = isKept ? moved : 0;
  const known = at("board").drawn ?? new Map(), all = !changed || isNarrowed;
  const items = plan.map(({ room, isClosed, members }) => (!all && !changed.has(room) ? { key: room, isKept: true } :
    { key: room, members, model: roomModel(room, isClosed, members, known.get(room)?.model) }));
  drawnPlan = plan;
  const drawn = drawList(at("board"), items, roomCard);
  for (const { key, members } of items.filter((item) => !item.isKept)) {
    const { node } = drawn.get(key), list = node.lastElementChild, known = list.drawn ?? new Map();
    node.style.containIntrinsicHeight = `auto ${HEAD_HEIGHT + ROW_HEIGHT * members.length}px`;
    drawList(list, members.map((member) => memberItem(key, member, members, known.get(member)?.model)), memberRow);
  }
  const none = desk.rooms.length ? "Nothing fits what you look for." : "There is no room yet: add one.";
  at("nothing").textContent = none;
  at("nothing").hidden = plan.length > 0;
  at("fold").textContent = desk.rooms.every(isFolded) ? "Unfold all" : "Fold all";
}
function roomModel(room, isFolded, members, known) {
  if (!desk.rates.has(room)) return { ...known, left: "was removed" };
  return { ...roomLine(desk, names, room), isFolded, tally: infoOf(room).tally, isEmpty: members.length === 0 };
}

export function withCount(s) {
  return { ...s, isSilent: isSilent(stats, desk, s.ssrc), isLossy: isLossy(stats, desk, s.ssrc) };
}
function memberItem(room, number, members, known) {
  const isHere = number === (members.includes(here.get(room)) ? here.get(room) : members[0]);
  const member = memberOf(desk, number);
  // One that has gone is drawn here as long as places are held.
  if (member?.room !== room) {
    const left = member ? `is now in room ${labelled(nameOf(names, "room", member.room), member.room)}` : "has left";
    const model = { ...known, left, isHere, isChosen: false, isFresh: false, trouble: "" };
    return { key: number, room, figures: UNKNOWN, model };
  }
  const line = memberLine(desk, names, member), isFresh = performance.now() - freshAt.get(number) < MARKED;
  const model = { ...line, sends: line.sends.map(withCount), trouble: troubleOf(desk, stats, member),
    isOpen: opened === number, isChosen: picked.has(number), isHere, isFresh };
  return { key: number, room, figures: figuresOf(desk, stats, member), model };
}

// The numbers of the whole bridge. Those of members are filters, and the one of all members takes a filter away.
export function renderSum() {
  const keys = ["speaking", "silent", "losing", "muted"];
  const sums = keys.map((key) => desk.rooms.reduce((all, room) => all + infoOf(room).tally[key], 0));
  const unknown = strangersIn(stats, desk).length, rooms = desk.rooms.length, people = desk.members.length;
  const look = [rooms, people, ...sums, unknown, filter].join();
  if (look === drawnSum) return;
  drawnSum = look;
  const one = (count, what) => (count === 1 ? what.slice(0, -1) : what);
  const number = (count, what, more) => el("button", { type: "button", class: `number${count ? " some" : ""}`,
    ...more }, el("b", {}, count.toLocaleString("en")), " ", el("span", {}, what));
  const counts = (key, count, what = key) => number(count, what, { "data-key": `filter ${what}`, "data-act": "filter",
    "data-of": key, "aria-pressed": String(filter === key) });
  morphChildren(at("sum"), [
    el("span", { "data-key": "rooms" }, `${rooms.toLocaleString("en")} ${one(rooms, "rooms")}`),
    counts("", people, one(people, "members")),
    ...keys.map((key, at) => counts(key, sums[at])),
    number(unknown, "unknown", { "data-key": "unknown", "data-act": "unknown", "data-of": "",
      disabled: unknown === 0 })]);
}
