// What the stream of events says. No function touches the page.
import { callsIn, whoOf } from "./people.js";

// The most calls of the log that a page keeps.
const MOST_LOGGED = 512;

// The text of /desk.txt after an event `desk`: its data has the state before and after, where octets go, how many, and
// those that come in their place. The text as it is where it has that state already, and null where it is another one.
export function editedText(text, told) {
  const [head, ...lines] = told.split("\n"), [before, after, start, removed] = head.split(" ");
  const end = text.lastIndexOf("state "), state = text.slice(end + 6).trimEnd(), from = Number(start);
  if (state === after) return text;
  if (state !== before) return null;
  const desk = text.slice(0, end);
  return `${desk.slice(0, from)}${lines.join("\n")}${desk.slice(from + Number(removed))}state ${after}\n`;
}

// Whether a text of /desk.txt is from before another one of the same run.
export function isOlderText(text, than) {
  const stateOf = (one) => one.slice(one.lastIndexOf("state ") + 6).trimEnd().split("-");
  const [run, number] = stateOf(text), [otherRun, otherNumber] = stateOf(than);
  return run === otherRun && Number(number) < Number(otherNumber);
}

// The calls of the log with those of an event `call`, the last ones of all.
export function withCalls(calls, told) {
  const all = new Map([...calls, ...callsIn(told)]);
  for (const number of all.keys()) {
    if (all.size <= MOST_LOGGED) break;
    all.delete(number);
  }
  return all;
}

// Who held the lease of the desk, by an event `lease`, where it has ended; or null.
export function closedBy(told) { return told.startsWith("closed ") ? told.slice(7) : null; }
// What that means. A fleet takes the rooms of a bridge that it doesn't reach to another one.
const FLEET = "agent-fleet";
export function closedInWords(name) {
  const why = name === "-" ? "nobody holds its lease" : `the lease of ${whoOf({ name })} has ended`;
  const moved = name === FLEET ? " The rooms may be on another bridge by now." : "";
  return `The desk is closed: ${why}. Calls are refused. Sound and pictures go on.${moved}`;
}
