// The history of calls, as the bridge tells it. No function touches the page.
import { by } from "./lines.js";
import { labelled, nameOf, sourceName } from "./overview.js";

// The calls in force and those that can be redone, in the order of the text: each with its number, its operator and its
// line. The last one in force is what an undo takes back, and the last undone one what a redo does again. The lines of
// calls by their numbers are kept from the history before, for what its reverts took back is left out.
export function parseHistory(text, before = null) {
  const past = { version: 0, done: [], undone: [], known: new Map() };
  let calls = past.done;
  for (const line of text.split("\n")) {
    if (line === "undone") calls = past.undone;
    else if (line.startsWith("end ")) past.version = Number(line.slice(4));
    else if (line !== "") calls.push(callIn(line));
  }
  past.known = knownLines(past, before?.known ?? new Map());
  return past;
}
function callIn(text) {
  const [number, operator] = text.split(" ", 2);
  return { number: Number(number), operator: Number(operator), line: text.slice(number.length + operator.length + 2) };
}

// The number of the call that a line takes back alone, or null.
export function revertedBy(line) { return /^revert [0-9]+$/.test(line ?? "") ? Number(line.slice(7)) : null; }

// The lines of a history by their numbers, and the earlier ones of calls that its reverts took back. Where a number has
// another line than before, it is another bridge's, and no earlier line counts.
function knownLines(past, before) {
  const calls = [...past.done, ...past.undone], known = new Map(calls.map(({ number, line }) => [number, line]));
  if (calls.some(({ number, line }) => (before.get(number) ?? line) !== line)) return known;
  // What is found here is looked through, too: a revert may have taken a revert back.
  for (const line of known.values()) {
    const number = revertedBy(line);
    if (before.has(number) && !known.has(number)) known.set(number, before.get(number));
  }
  return known;
}

// The call that is out of force or back in it by a revert: the revert of a revert brings its call back.
export function turnedBy(known, line) {
  const number = revertedBy(line), next = revertedBy(known.get(number));
  // A revert names an earlier call, so this ends.
  if (next === null || next >= number) return { number, isBack: false };
  const { number: last, isBack } = turnedBy(known, known.get(number));
  return { number: last, isBack: !isBack };
}

// Which words of a command are a room, a member or a source.
const OBJECTS = { "add-room": "r", "remove-room": "r", "add-member": "mr", "move-member": "mr", "remove-member": "m",
  "add-source": "sm", "remove-source": "s", "add-slot": "-m", subscribe: "-s", pin: "rs", unpin: "r",
  "give-floor": "rm", "take-floor": "r", mute: "s", unmute: "s", "set-gain": "ms" };
const SHORT_NAME = 24, SHORT_WORDS = 32;

// A call's line in which objects have their names: "mute Bob (202)". A name stands by itself, since it may run from
// right to left. A revert says what it did: "reverted mute Bob (202)".
const TURNS = ["reverted", "brought back"], THINGS = ["the revert of", "the return of"];
export function worded(names, desk, line, known = new Map(), [reverted, back] = TURNS) {
  if (revertedBy(line) === null) return namedLine(names, desk, line);
  const { number, isBack } = turnedBy(known, line), last = known.get(number) ?? line;
  const what = revertedBy(last) === null ? namedLine(names, desk, last) : `call ${number}`;
  return `${isBack ? back : reverted} ${what}`;
}
// A call by its number, as something that can be taken back: "mute Bob (202)", "the revert of mute Bob (202)". The
// page may not know its line, since a history leaves out what was reverted.
export function callWords(names, desk, number, known) {
  return known.has(number) ? worded(names, desk, known.get(number), known, THINGS) : `call ${number}`;
}
// The beginning of long words. A name that is cut still stands by itself.
export function begun(words) {
  const letters = [...words], kept = letters.slice(0, SHORT_WORDS).join("");
  const isOpen = kept.lastIndexOf("\u2068") > kept.lastIndexOf("\u2069");
  return letters.length > SHORT_WORDS ? `${kept}${isOpen ? "\u2069" : ""}\u2026` : words;
}
function namedLine(names, desk, line) {
  const group = line.startsWith("group ") ? "group " : "";
  return group + line.slice(group.length).split(" / ").map((part) => namedPart(names, desk, part)).join(" / ");
}
function namedPart(names, desk, part) {
  const [verb, ...words] = part.split(" "), kinds = OBJECTS[verb] ?? "";
  return [verb, ...words.map((word, place) => namedWord(names, desk, kinds[place], word))].join(" ");
}
function namedWord(names, desk, kind, word) {
  const whole = kind === "s" ? sourceName(names, desk, Number(word)) :
    nameOf(names, { r: "room", m: "member" }[kind], Number(word));
  const letters = [...whole];
  const name = letters.length > SHORT_NAME ? `${letters.slice(0, SHORT_NAME).join("")}\u2026` : whole;
  return name ? labelled(`\u2068${name}\u2069`, word) : word;
}

// What leads to the desk right behind a call: the undos that take back the calls after it, or the redos up to it. A
// call that was reverted is undone behind its revert, though the history leaves it out.
export function wayTo(past, number) {
  if (past.done.some((one) => one.number === number)) {
    const numbers = new Set(past.done.flatMap((one) => [one.number, revertedBy(one.line) ?? one.number]));
    const later = [...numbers].filter((one) => one > number).sort((a, b) => b - a);
    return { word: "undo", calls: later.map((one) => ({ number: one })) };
  }
  const undone = past.undone.findIndex((one) => one.number === number);
  return undone < 0 ? null : { word: "redo", calls: past.undone.slice(undone).reverse() };
}
export function wayWords({ word, calls }, isLast) {
  if (isLast) return "An undo takes it back.";
  const count = calls.length, many = count === 1 ? `One ${word} leads` : `${count} ${word}s lead`;
  return `${many} to the desk right behind it: ${calls.map(({ number }) => number).join(", ")}.`;
}

// What a later command lacks without the call that was to be reverted, by the number of its refusal.
const LACKS = { 1: "what it adds would be there already", 2: "no such room", 3: "no such member", 4: "no such source",
  5: "no such slot", 6: "the source would be of the other kind", 7: "they would be in two rooms",
  8: "the SSRC would be used", 12: "the table would be full", 21: "the room would have another rate" };
// Why a revert is refused, in words, by the words of the refusal from its number on; or undefined.
export function againstRevert(seen, [refusal, , ...more]) {
  if (refusal === "23") return "it isn't in force any more";
  if (refusal === "24") return `it lies too far back: over ${more[0]} commands came since`;
  if (refusal === "25") return needing(seen, ...more);
  return refusal === "26" ? elsewhere(seen, ...more) : undefined;
}
// The call that stands in the way of a revert, by the answer to it; or null.
export function callInTheWay(said) {
  const found = /^no [0-9]+ 25 Conflict ([0-9]+) /.exec(said);
  return found && Number(found[1]);
}
function needing({ names, desk, past }, call, part, refusal, name) {
  const made = past?.done.find(({ number }) => number === Number(call)), why = LACKS[refusal] ?? name;
  if (!made) return `call ${call} needs it (${why})`;
  const isGroup = made.line.startsWith("group "), parts = made.line.replace(/^group /, "").split(" / ");
  const words = `${namedLine(names, desk, parts[Number(part)] ?? made.line)}${isGroup ? " in a group" : ""}`;
  return `call ${call}, ${words} by operator ${made.operator}, needs it (${why})`;
}
function elsewhere({ names, desk }, kind, word) {
  if (!desk) return `it would also change whether ${kind} ${word} is there`;
  const what = `${kind} ${namedWord(names, desk, { room: "r", member: "m", source: "s" }[kind], word)}`;
  const rows = { room: desk.rates, member: by(desk.members, kind), source: by(desk.sources, "ssrc"),
    slot: by(desk.slots, "ssrc") }[kind];
  return rows?.has(Number(word)) ? `it would also take ${what} out` : `it would also bring ${what} back`;
}

