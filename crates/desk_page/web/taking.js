// Taking calls back, and doing them again.
import { callerInWords, isOthers, makesRooms, timeOf, whoOf } from "./people.js";
import { calls, desk, me, mine, names, past } from "./known.js";
import { at } from "./view.js";
import { call, notice, question, saidOf, whyNot } from "./page.js";

// What a question is about that a newer change closes.
let asked = null;
// Asks before another one's calls, or a restored desk, are taken back. A change that comes meanwhile closes the
// question.
async function mayTake(numbers, word) {
  const some = numbers.map((number) => calls.get(number));
  const others = some.filter((one) => isOthers(one, me, mine) || makesRooms(one));
  if (others.length === 0) return true;
  const [{ number, moment }] = others, whose = [...new Set(others.map(whoOf))].join(", ");
  const many = others.length > 1 ? ` That is the newest of ${others.length}.` : "";
  asked = { numbers, version: past.version };
  const text = `${timeOf(moment, Date.now())} ${whoOf(others[0])}: ${saidOf(number)}.${many}`;
  const isWanted = await question(`${word} what ${whose} did?`, text, word) !== null;
  asked = null;
  return isWanted;
}
export function closeStale() {
  if (!asked || asked.version === past.version) return;
  at("ask").close();
  notice("Not done: another change came first. Look, and press again.");
}
// Sends a line that wasn't sent since another person's call of its row came first, if that is still wanted.
export async function sendsAfter(other, line, words, key) {
  const text = `${callerInWords(other, { names, desk, past })} Yours was not sent: ${words}.`;
  if (await question("Send yours all the same?", text, "Send") === null) return 0;
  return call(line, words, key, Math.max(other.number, desk.version));
}
// Takes a call back, or does one again, by a line.
export async function takes({ number, line }, words, key, word) {
  if (word === "Redo" || whyNot(line, key) || await mayTake([number], word)) await call(line, words, key);
}

// Undoes or redoes calls, one after another. It stops where one isn't accepted, such as where another call came first.
export async function goes({ word, calls: those }) {
  const name = word === "undo" ? "Undo" : "Redo";
  if (word === "undo" && !await mayTake(those.map(({ number }) => number), name)) return;
  let version = past.version;
  for (const { number } of those) {
    if (version) version = await call(`${word} ${version}`, `${name}: ${saidOf(number)}`, null);
  }
}
