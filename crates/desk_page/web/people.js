// Who gave a call, and when. No function touches the page.
import { cut } from "./overview.js";
import { worded } from "./history.js";

// The name of somebody who has said none, how the name of a program begins, and the most octets of a name.
export const NOBODY = "page", PROGRAM = "agent-", LONGEST_PERSON = 64;
export function isProgram(name) { return name.startsWith(PROGRAM); }

// A person's name as the bridge takes it: one word, in which `%` and two digits stand for each octet of UTF-8 that
// isn't a letter, a digit or one of -_.!~*'() (RFC 3986 section 2.1). No person is a program, or nameless by `-`.
export function personWord(name) {
  let word = "";
  for (const letter of cut(name.toWellFormed())) {
    const more = encodeURIComponent(letter);
    if (word.length + more.length > LONGEST_PERSON - 2) break;
    word += more;
  }
  return isProgram(word) || word === "-" ? word.replace("-", "%2D") : word || NOBODY;
}
// Controls, and marks that turn what follows.
const HIDDEN = /[\u0000-\u001f\u007f-\u009f\u200e\u200f\u202a-\u202e\u2066-\u2069]/g;
// The name in such a word, or the word where it is none.
export function personName(word) {
  let name = word;
  try {
    name = decodeURIComponent(word);
  } catch {
    // Another program gave its connection a name with a `%` in it.
  }
  return cut(name.replace(HIDDEN, "")) || word;
}

// The calls in the text of /past.txt by their numbers, each with its moment, its operator, its name and its line. A
// bridge that has no such text has none.
export function callsIn(text) {
  const calls = new Map();
  for (const row of text.split("\n")) {
    const [, no, moment, op, name, line] = /^call ([0-9]+) ([0-9]+) ([0-9]+) (\S+) (.+)$/.exec(row) ?? [];
    const [number, operator] = [Number(no), Number(op)];
    if (line) calls.set(number, { number, moment: Number(moment), operator, name, line });
  }
  return calls;
}

// Who gave a call, in words. A name stands by itself, since it may run from right to left.
export function whoOf({ name = "-", operator }) {
  return name === "-" ? `operator ${operator}` : `\u2068${personName(name)}\u2069`;
}
// When that was: the time of day, and the day too where it wasn't today.
export function timeOf(moment, now) {
  const when = new Date(moment), [day, time] = [when.toDateString(), when.toTimeString().slice(0, 5)];
  return day === new Date(now).toDateString() ? time : `${day.slice(4, 10)} ${time}`;
}
// Another person's call, by which a line wasn't sent, in the answer to that line; or null.
export function newerIn(said) { return said.startsWith("Newer: ") ? [...callsIn(said).values()][0] ?? null : null; }
// Who gave a call, when, and what it did.
export function callerInWords(call, { names, desk, past }, now = Date.now()) {
  return `${timeOf(call.moment, now)} ${whoOf(call)}: ${worded(names, desk, call.line, past?.known)}.`;
}
// Whether a call is another one's: neither this page's, nor by the name that its operator has.
export function isOthers(call, me, mine) { return call !== undefined && !mine.has(call.number) && call.name !== me; }
// Whether a call makes rooms as a restored desk's first group does: with it all of its members go.
export function makesRooms(call) { return call !== undefined && call.line.startsWith("group add-room "); }
