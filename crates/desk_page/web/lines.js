// What the page makes of the desk's text, and the lines that clicks send. No function touches the page.
import { advice, faults } from "./advice.js";
import { callerInWords, newerIn } from "./people.js";
import { againstRevert } from "./history.js";

// The rates of rooms, in Hz.
export const SPEECH = 8000, MUSIC = 44100;

// The desk as it stands in the text of /desk.txt: the lines of `show`, and behind `end VERSION` the names' version and
// what the program calls this text.
export function parseDesk(text) {
  const desk = { rooms: [], rates: new Map(), members: [], sources: [], slots: [], subs: new Map(), mutes: new Set(),
    gains: new Map(), pins: new Map(), floors: new Map(), version: 0, rows: [], named: 0, state: "" };
  for (const line of text.split("\n")) {
    if (line.startsWith("end ")) desk.version = Number(line.slice(4));
    else if (line.startsWith("names ")) desk.named = Number(line.slice(6));
    else if (line.startsWith("state ")) desk.state = line.slice(6);
    else if (line !== "") {
      desk.rows.push(line);
      addRow(desk, rowOf(line));
    }
  }
  return desk;
}

// A row as the desk keeps it: where it goes, and what. A row that has come before isn't read again.
const read = new Map(), MOST_READ = 200000;
function rowOf(line) {
  if (read.size >= MOST_READ) read.clear();
  if (!read.has(line)) read.set(line, rowIn(line.split(" ")));
  return read.get(line);
}
function rowIn([kind, ...word]) {
  const n = word.map(Number);
  if (kind === "room") return { kind, room: n[0], rate: n[1] ?? SPEECH };
  if (kind === "member") return { kind, into: "members", row: memberIn(n, word) };
  if (kind === "source") return { kind, into: "sources", row: { ssrc: n[0], member: n[1], kind: word[2] } };
  if (kind === "slot") return { kind, into: "slots", row: { ssrc: n[0], member: n[1], index: n[2] } };
  if (kind === "mute") return { kind, source: n[0] };
  if (kind === "gain") return { kind, under: "gains", key: `${n[0]} ${n[1]}`, value: n[2] };
  const under = { sub: "subs", pin: "pins", floor: "floors" }[kind];
  return under ? { kind, under, key: n[0], value: n[1] } : { kind };
}
function addRow(desk, { into, row, under, key, value, room, rate, source }) {
  if (into) desk[into].push(row);
  else if (under) desk[under].set(key, value);
  else if (source !== undefined) desk.mutes.add(source);
  else if (room !== undefined) {
    desk.rooms.push(room);
    desk.rates.set(room, rate);
  }
}

function memberIn([place, member, room, , , mix], [, , , address, codec]) {
  return { place, member, room, address, codec, mix };
}

export function isMusic(desk, room) { return desk.rates.get(room) === MUSIC; }

// The rows of a list by one of their fields. It is made once for each list.
const indexes = new WeakMap();
export function by(rows, field) {
  if (!indexes.has(rows)) indexes.set(rows, {});
  const known = indexes.get(rows);
  if (!known[field]) {
    known[field] = new Map();
    for (const row of rows) {
      if (!known[field].has(row[field])) known[field].set(row[field], []);
      known[field].get(row[field]).push(row);
    }
  }
  return known[field];
}
export function withField(rows, field, value) { return by(rows, field).get(value) ?? []; }
export function memberOf(desk, number) { return withField(desk.members, "member", number)[0]; }
export function sourceOf(desk, ssrc) { return withField(desk.sources, "ssrc", ssrc)[0]; }
export function sourcesOf(desk, member, kind) {
  return withField(desk.sources, "member", member).filter((s) => !kind || s.kind === kind);
}
export function slotsOf(desk, member) {
  return [...withField(desk.slots, "member", member)].sort((a, b) => a.index - b.index);
}
export function membersIn(desk, room) { return withField(desk.members, "room", room); }

// The source that the rules of the desk choose for a slot, and the rule.
function chosen(desk, slot) {
  const room = memberOf(desk, slot.member).room;
  if (desk.subs.has(slot.ssrc)) return { source: desk.subs.get(slot.ssrc), by: "sub" };
  if (slot.index !== 0) return { source: null, by: null };
  if (desk.pins.has(room)) return { source: desk.pins.get(room), by: "pin" };
  if (!desk.floors.has(room)) return { source: null, by: null };
  const held = sourcesOf(desk, desk.floors.get(room), "video").map((s) => s.ssrc);
  return { source: held.length ? Math.min(...held) : null, by: "floor" };
}

// What a slot shows, by which rule, and why it shows nothing.
export function seen(desk, slot) {
  const { source, by } = chosen(desk, slot);
  if (source === null) return { source, by, why: by ? "the floor's holder has no video" : "nothing is chosen" };
  if (desk.mutes.has(source)) return { source: null, by, why: `${source} is muted` };
  if (sourceOf(desk, source).member === slot.member) return { source: null, by, why: `${source} is its own` };
  return { source, by, why: "" };
}

// The video sources that a slot can be subscribed to, but for the one that it is.
export function videosFor(desk, slot) {
  const members = membersIn(desk, memberOf(desk, slot.member).room);
  const videos = members.flatMap((m) => sourcesOf(desk, m.member, "video")).map((s) => s.ssrc);
  return videos.filter((ssrc) => desk.subs.get(slot.ssrc) !== ssrc);
}

// The audio sources that a member hears or could hear, each with its gain.
export function heard(desk, member) {
  const others = membersIn(desk, member.room).filter((m) => m.member !== member.member);
  return others.flatMap((m) => sourcesOf(desk, m.member, "audio")).map((s) => {
    const gain = desk.gains.has(`${member.member} ${s.ssrc}`) ? desk.gains.get(`${member.member} ${s.ssrc}`) : 256;
    return { ssrc: s.ssrc, gain, muted: desk.mutes.has(s.ssrc) };
  });
}

// The rooms that a member can move to: those of its room's rate.
export function roomsFor(desk, member) {
  return desk.rooms.filter((room) => room !== member.room && isMusic(desk, room) === isMusic(desk, member.room));
}

// The codec of a new member: what was chosen, and else what fits the room.
export function codecOf(desk, { room, codec }) {
  return codec || (desk && isMusic(desk, Number(room)) ? "l16" : "pcmu");
}

// The lines that clicks and drags send.
export const lines = {
  addRoom: (room, rate) => (Number(rate) === MUSIC ? `add-room ${room} ${MUSIC}` : `add-room ${room}`),
  removeRoom: (room) => `remove-room ${room}`,
  addMember: (f, codec = f.codec) =>
    `add-member ${f.member} ${f.room} ${f.address} ${codec} ${f.ssrc} ${f.seq ?? 0} ${f.ts ?? 0}`,
  moveMember: (member, room) => `move-member ${member} ${room}`,
  removeMember: (member) => `remove-member ${member}`,
  addSource: (f) => `add-source ${f.ssrc} ${f.member} ${f.kind}`,
  removeSource: (ssrc) => `remove-source ${ssrc}`,
  addSlot: (f) => `add-slot ${f.ssrc} ${f.member} ${f.index} ${f.seq ?? 0} ${f.ts ?? 0}`,
  removeSlot: (ssrc) => `remove-slot ${ssrc}`,
  subscribe: (slot, source) => `subscribe ${slot} ${source}`,
  unsubscribe: (slot) => `unsubscribe ${slot}`,
  pin: (room, source) => `pin ${room} ${source}`,
  unpin: (room) => `unpin ${room}`,
  giveFloor: (room, member) => `give-floor ${room} ${member}`,
  takeFloor: (room) => `take-floor ${room}`,
  mute: (source) => `mute ${source}`,
  unmute: (source) => `unmute ${source}`,
  setGain: (member, source, q8) => `set-gain ${member} ${source} ${q8}`,
  undo: (version) => `undo ${version}`,
  redo: (version) => `redo ${version}`,
  revert: (number) => `revert ${number}`,
  group: (parts) => `group ${parts.join(" / ")}`,
};

// The line that a drop sends: a member on a room, or a source on a slot. Nothing where it would change nothing.
export function dropped(desk, drag, on) {
  if (drag.member !== undefined && on.room !== undefined) {
    const member = memberOf(desk, drag.member);
    return member && member.room !== on.room ? lines.moveMember(drag.member, on.room) : null;
  }
  if (drag.source !== undefined && on.slot !== undefined) {
    return desk.subs.get(on.slot) === drag.source ? null : lines.subscribe(on.slot, drag.source);
  }
  return null;
}

// A number from `least` on that no row of its kind has: a room, a member or an SSRC.
export function free(desk, kind, least) {
  const ssrcs = () => [desk.sources, desk.slots].flatMap((rows) => rows.map((row) => row.ssrc));
  const taken = new Set(kind === "room" ? desk.rooms : desk.members.map((m) => (kind === "ssrc" ? m.mix : m.member)));
  if (kind === "ssrc") for (const ssrc of ssrcs()) taken.add(ssrc);
  let number = least;
  while (taken.has(number)) number += 1;
  return number;
}

// The fields of forms that suggest a free number, each with its form and that number.
export function suggested(desk) {
  const fields = [["add-room", "room", 1], ["add-member", "member", 10], ["add-member", "ssrc", 9001],
    ["add-source", "ssrc", 101], ["add-slot", "ssrc", 501]];
  return fields.map(([form, field, least]) => [form, field, free(desk, field, least)]);
}

// An answer of the bridge in words. `seen` is what the page knows: the names, the desk and the history.
export function inWords(said, seen = {}) {
  const word = said.split(" ");
  if (word[0] === "ok") return { good: true, text: `accepted as version ${word[1]}` };
  if (word[0] === "no") {
    const part = word[2] === "20" ? ` Command ${Number(word[4]) + 1} of it: ${advice[word[5]] ?? word[6]}.` : "";
    const revert = againstRevert(seen, word.slice(2)), code = word.slice(2, revert ? 4 : undefined).join(" ");
    return { good: false, text: `refused (${code}): ${revert ?? advice[word[2]] ?? word[3]}.${part}` };
  }
  if (word[0] === "fault") {
    return { good: false, text: `not understood (${said}): at word ${word[1]}, ${faults[word[2]] ?? word[3]}.` };
  }
  return { good: false, text: "no answer came: look at the desk before you send it again." };
}

// A response of the page to a call, in words: 200 has the bridge's answer.
const NO_SEAT = "The page needs a seat: set operators to one more in the bridge's settings.";
export function replyInWords(status, text, seen) {
  if (status === 200) return inWords(text, seen);
  if (text.startsWith("Busy")) {
    return { good: false, text: `all seats of the bridge are taken, so nothing was done. ${NO_SEAT}` };
  }
  if (newerIn(text)) return { good: false, text: `not sent. ${callerInWords(newerIn(text), seen)}` };
  const plain = status === 413 ? "a call is one line of up to 4096 octets" : String(status);
  return { good: false, text: text || plain };
}

// A response to new names that weren't kept, in words.
export function nameRefusal(status, text) {
  if (/^no [0-9]+ Unsaved/.test(text)) return "the file of names can't be written, so nothing was changed.";
  if (/^no [0-9]+ NoNames/.test(text)) return "that is no name.";
  return status === 413 ? "there are too many names." : text || String(status);
}

// The rooms of which something changed between two desks: those of the rows that came or went.
export function changedRooms(before, after, rows) {
  // A member's place may shift, and then the same row goes and comes.
  const times = new Map(), plain = (row) => row.slice(2).replace(/^member [0-9]+ /, "member ");
  for (const row of rows) times.set(plain(row), (times.get(plain(row)) ?? 0) + 1);
  const rooms = new Set(), words = [...times].filter(([, count]) => count === 1).map(([row]) => row.split(" "));
  for (const [kind, first, second] of words) {
    for (const desk of [before, after]) {
      const room = roomOf(desk, kind, Number(first), Number(second));
      if (room !== undefined) rooms.add(room);
    }
  }
  return rooms;
}
function roomOf(desk, kind, first, second) {
  if (["room", "pin", "floor"].includes(kind)) return first;
  const member = { member: first, gain: first, source: second, slot: second,
    sub: withField(desk.slots, "ssrc", first)[0]?.member, mute: sourceOf(desk, first)?.member }[kind];
  return memberOf(desk, member)?.room;
}

// The rows that went and that came between two desks.
export function changes(before, after) {
  let from = 0, end = 0;
  const least = Math.min(before.length, after.length);
  while (from < least && before[from] === after[from]) from += 1;
  while (end < least - from && before[before.length - 1 - end] === after[after.length - 1 - end]) end += 1;
  const old = before.slice(from, before.length - end), now = after.slice(from, after.length - end);
  const had = new Set(old), has = new Set(now);
  const went = old.filter((row) => !has.has(row)), came = now.filter((row) => !had.has(row));
  return [...went.map((row) => `- ${row}`), ...came.map((row) => `+ ${row}`)];
}
