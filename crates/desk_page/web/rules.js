// The rules of the page: what stays in its place, when a press is meant, and who is in trouble. No function touches the
// page.
import { lines, sourcesOf } from "./lines.js";
import { figuresOf } from "./stats.js";
import { isProgram } from "./people.js";
import { revertedBy, turnedBy } from "./history.js";

// A press is refused for so long after another's change of its object, or after places have changed, in milliseconds.
export const JUST = 300;
// So long after the last news the page is late, and after that gone.
export const LATE = 4000, GONE = 10000;
// For so long rooms by trouble keep their order, and who ceases to fit a filter stays.
export const SETTLED = 5000;

// The objects that a row of the desk is about, as `member 10`.
export function objectsOfRow(row) {
  const [kind, first, second, third] = row.split(" ");
  if (kind === "member") return [`member ${second}`, `room ${third}`];
  if (kind === "source" || kind === "slot") return [`${kind} ${first}`, `member ${second}`];
  if (kind === "mute") return [`source ${first}`];
  if (kind === "sub") return [`slot ${first}`];
  return [kind === "gain" ? `gain ${first} ${second}` : `${kind} ${first}`];
}
// The objects that a line is about. What an undo takes back may be anything; a revert names its call.
const ABOUT = { "add-room": "room", "remove-room": "room", "add-member": "member", "move-member": "member",
  "remove-member": "member", "add-source": "source", "remove-source": "source", "add-slot": "slot",
  "remove-slot": "slot", subscribe: "slot", unsubscribe: "slot", pin: "pin", unpin: "pin", "give-floor": "floor",
  "take-floor": "floor", mute: "source", unmute: "source", undo: "history", redo: "history", revert: "call" };
export function objectsOfLine(line) {
  return line.replace(/^group /, "").split(" / ").map((part) => {
    const [verb, first, second] = part.split(" ");
    if (verb === "set-gain") return `gain ${first} ${second}`;
    return ABOUT[verb] === "history" ? "history" : `${ABOUT[verb] ?? verb} ${first}`;
  });
}

// The objects that others have changed between two versions of the desk, by the rows that went and came. `mine` are the
// versions that this page's calls made, and `sent` those of its lines that may have come meanwhile; `waiting` of these
// have no answer yet.
export function othersObjects(before, after, rows, mine, sent, waiting) {
  let others = 0;
  for (let version = before + 1; version <= after; version += 1) if (!mine.has(version)) others += 1;
  if (others <= waiting) return [];
  const own = new Set(sent.flatMap(objectsOfLine)), moved = new Map(), plain = (row) => row.slice(2);
  // A member's place may shift: then its row goes and comes, and nothing of it has changed.
  const still = (row) => plain(row).replace(/^member [0-9]+ /, "member ");
  for (const row of rows) moved.set(still(row), (moved.get(still(row)) ?? 0) + 1);
  const objects = rows.filter((row) => moved.get(still(row)) === 1).flatMap((row) => objectsOfRow(plain(row)));
  return ["history", ...new Set(objects)].filter((object) => !own.has(object));
}

// Places. A plan says which rooms are drawn, in which order, and which members in each.
const placesOf = (plan) => plan.map(({ room, members }) => `${room} ${members.join()}`);
const keysOf = (plan) => plan.flatMap(({ room, members }) => [`room ${room}`, ...members.map((m) => `${room} ${m}`)]);
// How many changes of place lie between two plans.
export function placeChanges(before, after) {
  const had = new Set(keysOf(before)), has = new Set(keysOf(after));
  const count = [...had].filter((key) => !has.has(key)).length + [...has].filter((key) => !had.has(key)).length;
  return count || Number(placesOf(before).join("/") !== placesOf(after).join("/"));
}
// Things in the places that they had: those that are there still as they are now, and the others with a mark.
export function inOldPlaces(before, now, key) {
  const found = new Map(now.map((one) => [one[key], one]));
  return before.map((one) => found.get(one[key]) ?? { ...one, hasLeft: true });
}

// What Undo takes back and Redo does again, where programs give calls as well. `calls` are those of the log. A person's
// call is one that no program gave.
export function undoOf(past, calls) {
  const over = passedOver(past, calls);
  const one = past.done.findLast(({ number }) => isPersons(calls, number) && !over.has(number));
  if (!one) return null;
  const isNewest = one === past.done[past.done.length - 1];
  return { number: one.number, line: isNewest ? lines.undo(past.version) : lines.revert(one.number) };
}
export function redoOf(past, calls) {
  const last = past.undone[past.undone.length - 1], over = passedOver(past, calls);
  if (last) return { number: last.number, line: lines.redo(past.version) };
  for (const { number } of past.done.filter((one) => isPersons(calls, one.number)).reverse()) {
    if (!over.has(number)) return null;
    const { number: taken, isBack } = over.get(number);
    if (!isBack) return { number: taken, line: lines.revert(number) };
  }
  return null;
}
function isPersons(calls, number) { return !isProgram(calls.get(number)?.name ?? "-"); }
// The reverts that are Undos and Redos: each takes back a person's call, or brings it back, behind which no other
// person's call was in force. By its number, that call and whether it is back.
function passedOver(past, calls) {
  const over = new Map();
  let newest = 0;
  for (const { number, line } of past.done.filter((one) => isPersons(calls, one.number))) {
    const turned = revertedBy(line) === null ? null : turnedBy(past.known, line);
    if (turned && isPersons(calls, turned.number) && newest <= turned.number) over.set(number, turned);
    else newest = number;
  }
  return over;
}

// What troubles a member: nothing comes of a source, many packets are lost on their way to the bridge or from it, or it
// has the floor and is muted.
export function troubleOf(desk, stats, member) {
  const figures = figuresOf(desk, stats, member);
  if (figures.isSilent) return "silent";
  if (figures.isLosingIn) return "losing in";
  if (figures.isLosingOut) return "losing out";
  const isOdd = desk.floors.get(member.room) === member.member && isMuted(desk, member.member);
  return isOdd ? "muted floor" : "";
}
const WEIGHTS = { "": 0, "muted floor": 1, "losing in": 2, "losing out": 2, silent: 2 };
export function isMuted(desk, member) {
  const voices = sourcesOf(desk, member, "audio");
  return voices.length > 0 && voices.every((s) => desk.mutes.has(s.ssrc));
}
// Whether a member is one of those that a number counts. One may be silent with its picture and lose sound.
const COUNTED = { speaking: (one) => one.isSpeaking, silent: (one) => one.isSilent,
  losing: (one) => one.isLosingIn || one.isLosingOut };
export function isCounted(desk, stats, filter, member) {
  return filter === "muted" ? isMuted(desk, member.member) : COUNTED[filter](figuresOf(desk, stats, member));
}
// What is counted of members: those of a room, or of the whole bridge.
export function tallyOf(desk, stats, members) {
  const tally = { members: members.length, speaking: 0, silent: 0, losing: 0, muted: 0, weight: 0 };
  for (const member of members) {
    for (const key of ["speaking", "silent", "losing", "muted"]) {
      if (isCounted(desk, stats, key, member)) tally[key] += 1;
    }
    tally.weight += WEIGHTS[troubleOf(desk, stats, member)];
  }
  return tally;
}

// What the page knows of its link, in words. `quiet` is how long ago the last news came, in milliseconds, `since` when
// that was, and `told` what the program says of its bridge: "", "bridge" or "seats".
export function linkOf(told, quiet) {
  if (told) return told;
  if (quiet > GONE) return "gone";
  return quiet > LATE ? "late" : "live";
}
export function linkInWords(link, quiet, since) {
  if (link === "live") return "Live";
  if (link === "late") return `Late: last news ${Math.floor(quiet / 1000)} s ago`;
  const from = since ? ` since ${since}` : "";
  if (link === "bridge") return `Bridge gone${from} \u2026`;
  if (link === "seats") return `No free seat${from} \u2026`;
  if (link === "gone") return `No news${from || " yet"} \u2026`;
  return "Asking the bridge";
}
