// Names, what the overview says, and what is done with many members. No function touches the page.
import { isMusic, lines, memberOf, membersIn, seen, slotsOf, sourceOf, sourcesOf } from "./lines.js";

// Names. They are kept by `member 10`, `room 1` or `source 201`, and a source without one has its member's.
export const LONGEST_NAME = 200;
export function nameOf(names, kind, number) { return names[`${kind} ${number}`] ?? ""; }
export function sourceName(names, desk, ssrc) {
  const source = sourceOf(desk, ssrc);
  return nameOf(names, "source", ssrc) || (source ? nameOf(names, "member", source.member) : "");
}
export function labelled(name, number) { return name ? `${name} (${number})` : String(number); }
export function cut(name) { return [...name.trim()].slice(0, LONGEST_NAME).join(""); }
export function renamed(names, kind, number, name) {
  const next = { ...names, [`${kind} ${number}`]: cut(name) };
  if (!cut(name)) delete next[`${kind} ${number}`];
  return next;
}

// The names in the text of /names, and their version. What isn't a name is left out.
export function parseNames(text) {
  const end = text.indexOf("\n"), version = Number(text.slice(6, end));
  const pairs = Object.entries(JSON.parse(text.slice(end + 1))).filter(([, name]) => typeof name === "string");
  return { version, names: Object.fromEntries(pairs) };
}

// What a line of the overview says of a member.
export function memberLine(desk, names, member) {
  const sends = sourcesOf(desk, member.member).map((s) =>
    ({ ssrc: s.ssrc, kind: s.kind, muted: desk.mutes.has(s.ssrc), name: nameOf(names, "source", s.ssrc) }));
  const sees = slotsOf(desk, member.member).map((slot) => {
    const { source, by: rule, why } = seen(desk, slot);
    const name = source === null ? "" : sourceName(names, desk, source);
    return source === null ? { slot: slot.ssrc, source, why } :
      { slot: slot.ssrc, source, by: rule, name, label: labelled(name, source) };
  });
  const audio = sends.filter((s) => s.kind === "audio"), floor = desk.floors.get(member.room) === member.member;
  const muted = audio.length > 0 && audio.every((s) => s.muted);
  return { member: member.member, name: nameOf(names, "member", member.member), sends, sees, floor, muted,
    hasAudio: audio.length > 0, odd: floor && muted };
}

// What the head of a room says.
export function roomLine(desk, names, room) {
  const members = membersIn(desk, room), floor = desk.floors.get(room), pin = desk.pins.get(room);
  const voices = members.flatMap((m) => sourcesOf(desk, m.member, "audio"));
  const holder = floor === undefined ? [] : sourcesOf(desk, floor, "audio");
  return { room, name: nameOf(names, "room", room), music: isMusic(desk, room), members: members.length,
    muted: voices.filter((s) => desk.mutes.has(s.ssrc)).length,
    floor: floor === undefined ? null : { member: floor, label: labelled(nameOf(names, "member", floor), floor) },
    pin: pin === undefined ? null : { ssrc: pin, label: labelled(sourceName(names, desk, pin), pin) },
    odd: holder.length > 0 && holder.every((s) => desk.mutes.has(s.ssrc)) };
}

// Whether a member or a room fits what is looked for: all of its words, in any case.
function fits(words, texts) {
  const text = texts.join(" ").toLowerCase();
  return words.every((word) => text.includes(word));
}
export function wordsOf(text) { return text.toLowerCase().split(/\s+/).filter((word) => word !== ""); }
function memberFits(desk, names, member, words) {
  const ssrcs = sourcesOf(desk, member.member).flatMap((s) => [s.ssrc, nameOf(names, "source", s.ssrc)]);
  const slots = slotsOf(desk, member.member).map((s) => s.ssrc);
  const name = nameOf(names, "member", member.member);
  return fits(words, [member.member, name, member.address, member.mix, ...ssrcs, ...slots]);
}

// The rooms with the members that are shown: all of a room that fits itself, and otherwise those that fit. Where only
// some are counted, rooms without one are left out. `placeOf` is a room's place by trouble or by who speaks.
export function overview(desk, names, search, sort, isShown = null, placeOf = () => 0) {
  const words = wordsOf(search);
  const roomFits = (room) => words.length === 0 || fits(words, [`room ${room}`, nameOf(names, "room", room)]);
  const found = desk.rooms.map((room) => {
    const counted = isShown ? membersIn(desk, room).filter(isShown) : membersIn(desk, room);
    if (roomFits(room)) return { room, members: counted };
    return { room, members: counted.filter((member) => memberFits(desk, names, member, words)) };
  }).filter(({ room, members }) => members.length > 0 || (!isShown && roomFits(room)));
  const text = ({ room }) => nameOf(names, "room", room).toLowerCase() || "\uffff";
  const order = { number: (a, b) => a.room - b.room, members: (a, b) => b.members.length - a.members.length,
    name: (a, b) => text(a).localeCompare(text(b)) }, placed = (a, b) => placeOf(a.room) - placeOf(b.room);
  return found.sort((a, b) => (order[sort] ?? placed)(a, b) || a.room - b.room);
}

// Groups. One of one command is that command, and none is nothing.
export const MOST_PARTS = 64;
export function grouped(parts) { return parts.length < 2 ? parts[0] ?? null : lines.group(parts); }
export function voicesOf(desk, members, muted) {
  return members.flatMap((member) => sourcesOf(desk, member, "audio")).filter((s) => desk.mutes.has(s.ssrc) === muted);
}
// Mutes members, or unmutes them where all are muted already.
export function toggled(desk, members) {
  const loud = voicesOf(desk, members, false).map((s) => lines.mute(s.ssrc));
  return loud.length ? loud : voicesOf(desk, members, true).map((s) => lines.unmute(s.ssrc));
}
export function othersMuted(desk, member) {
  const others = membersIn(desk, memberOf(desk, member).room).map((m) => m.member).filter((m) => m !== member);
  return voicesOf(desk, others, false).map((s) => lines.mute(s.ssrc));
}
export function movedAll(desk, members, room) {
  const moving = members.map((number) => memberOf(desk, number)).filter((m) => m && m.room !== room);
  return moving.map((m) => lines.moveMember(m.member, room));
}

// What goes along with a room: a count of each kind.
export function goesAlong(desk, room) {
  const members = membersIn(desk, room).map((m) => m.member);
  const counts = [["member", members.length], ["source", members.flatMap((m) => sourcesOf(desk, m)).length],
    ["slot", members.flatMap((m) => slotsOf(desk, m)).length]];
  return counts.map(([what, count]) => `${count} ${what}${count === 1 ? "" : "s"}`).join(", ");
}
