// Tries what the page makes of persons and of the log: node page_run.mjs ALL page_people.js.
"use strict";
const assert = require("node:assert");
const { page } = globalThis;
let tried = 0;
function same(got, wanted) {
  assert.deepStrictEqual(got, wanted);
  tried += 1;
}

// A person's name is one word of 64 octets at most, and no program's.
same(["", "  ", "anna", " anna ", "Bo Li", "J\u00f6rg", "-", "agent-7", "agent", "50%"].map(page.personWord),
  ["page", "page", "anna", "anna", "Bo%20Li", "J%C3%B6rg", "%2D", "agent%2D7", "agent", "50%25"]);
same(page.personWord("\ud800x"), "%EF%BF%BDx");
same([page.personWord("a".repeat(80)).length, page.personWord("\u6797".repeat(9))], [62, "%E6%9E%97".repeat(6)]);
same(["anna", "Bo%20Li", "J%C3%B6rg", "50%", "%2D", "a%E2%80%AEb", "%0A"].map(page.personName),
  ["anna", "Bo Li", "J\u00f6rg", "50%", "-", "ab", "%0A"]);

// The log.
const [first, second] = ["1 1764360000123 0 - add-room 1 8000", "2 1764360004870 1 ann group mute 1 / mute 2"];
const log = page.callsIn(`call ${first}\ncall ${second}\nend 2\n`);
same([...log.keys()], [1, 2]);
same(log.get(2), { number: 2, moment: 1764360004870, operator: 1, name: "ann", line: "group mute 1 / mute 2" });
same(["end 0\n", "fault 1 3 UnknownWord\n", ""].map((text) => page.callsIn(text).size), [0, 0, 0]);
// What the stream of events tells of the desk and of the log.
const text = "room 1\nmute 5\nend 7\nnames 0\nstate ab-3\n", edit = "ab-3 ab-4 7 12\nmute 5\nmute 6\nend 8";
same(page.editedText(text, edit), "room 1\nmute 5\nmute 6\nend 8\nnames 0\nstate ab-4\n");
same(page.editedText(text, "ab-3 ab-4 7 7\n"), "room 1\nend 7\nnames 0\nstate ab-4\n");
same(page.editedText(text, "ab-3 ab-4 0 0\nroom 0\n"), "room 0\nroom 1\nmute 5\nend 7\nnames 0\nstate ab-4\n");
same(["ab-2 ab-3", "ab-2 ab-4", "cd-3 cd-4"].map((states) => page.editedText(text, `${states} 0 7\n`)),
  [text, null, null]);
same(["ab-2", "ab-3", "ab-10", "cd-2"].map((state) => page.isOlderText(`end 1\nstate ${state}\n`, text)),
  [true, false, false, false]);
same([...page.withCalls(log, "call 3 1764360009315 0 bob undo 2").keys()], [1, 2, 3]);
const many = Array.from({ length: 600 }, (_, at) => `call ${at + 1} 1 0 - mute 1`).join("\n");
same([page.withCalls(log, many).size, [...page.withCalls(log, many).keys()][0]], [512, 89]);
const plain = (text) => text.replace(/[\u2068\u2069]/g, "");
same([log.get(1), log.get(2), { operator: 3 }].map((one) => plain(page.whoOf(one))),
  ["operator 0", "ann", "operator 3"]);
same(page.whoOf({ name: "Bo%20Li", operator: 1 }), "\u2068Bo Li\u2069");
const noon = new Date(2026, 10, 30, 12, 3).getTime();
same([page.timeOf(noon, noon + 3600000), page.timeOf(noon, noon + 86400000)], ["12:03", "Nov 30 12:03"]);
const isOthers = (number, me) => page.isOthers(log.get(number), me, new Set());
same([isOthers(2, "bob"), isOthers(2, "ann"), isOthers(1, "ann"), isOthers(3, "ann")],
  [true, false, true, false]);
same(page.isOthers(log.get(2), "bob", new Set([2])), false);
// A call that another person's came before.
const came = "call 7 1764360012008 1 Bo%20Li mute 201", newer = `Newer: another person touched that row\n${came}`;
same(page.newerIn(newer), { number: 7, moment: 1764360012008, operator: 1, name: "Bo%20Li", line: "mute 201" });
same([came, "Newer: x", "Newer: x\nend 7", "NoLine: x", ""].map(page.newerIn), [null, null, null, null, null]);
const small = page.parseDesk("room 1\nend 7\n"), seen = { names: {}, desk: small, past: null };
const at = page.timeOf(1764360012008, Date.now());
same(plain(page.replyInWords(409, newer, seen).text), `not sent. ${at} Bo Li: mute 201.`);
same([page.replyInWords(409, newer, seen).good, page.replyInWords(409, "Newer: x", seen).text], [false, "Newer: x"]);
// A desk whose lease has ended.
same(["open", "closed ann", "closed -", "closed agent-fleet", "closed", ""].map(page.closedBy),
  [null, "ann", "-", "agent-fleet", null, null]);
same(["Bo%20Li", "-", "agent-fleet"].map((name) => plain(page.closedInWords(name))), [
  "The desk is closed: the lease of Bo Li has ended. Calls are refused. Sound and pictures go on.",
  "The desk is closed: nobody holds its lease. Calls are refused. Sound and pictures go on.",
  "The desk is closed: the lease of agent-fleet has ended. Calls are refused. Sound and pictures go on. "
    + "The rooms may be on another bridge by now."]);
// A restored desk is asked about, whoever restored it.
const line = (words) => page.makesRooms({ number: 1, name: "ann", line: words });
same([line("group add-room 1 8000 / add-member 10 1 127.0.0.1:6000 pcmu 9001 0 0"), line("add-room 1"),
  line("group mute 201 / mute 202"), page.makesRooms(undefined)], [true, false, false, false]);

// A desk's calls: NAME LINE each. What an undo took back stands before `undone`.
function undos(...calls) {
  const rows = calls.map((one) => one.split(" ")), mutes = rows.map(([, ...line]) => line.join(" "));
  const log = new Map(rows.map(([name], at) => [at + 1, { number: at + 1, name }]));
  const over = new Set();
  for (let at = mutes.length - 1; at >= 0; at -= 1) {
    const found = /^revert ([0-9]+)$/.exec(mutes[at]);
    if (found && !over.has(at + 1)) over.add(Number(found[1]));
  }
  const text = (kept) => mutes.map((line, at) => `${at + 1} 0 ${line}\n`).filter((_, at) => kept(at + 1)).join("");
  const before = page.parseHistory(`${text(() => true)}end ${mutes.length}\n`);
  const past = page.parseHistory(`${text((number) => !over.has(number))}end ${mutes.length}\n`, before);
  return [page.undoOf(past, log), page.redoOf(past, log)].map((one) => one && `${one.number} ${one.line}`);
}
const [p, q, r, g] = ["ann mute 1", "bob mute 2", "- mute 3", "agent-gw add-room 1"];
// The newest call of persons: by an undo where it is the newest of all, else alone.
same(undos(), [null, null]);
same(undos(p, q), ["2 undo 2", null]);
same(undos(p, r), ["2 undo 2", null]);
same(undos(p, q, g), ["2 revert 2", null]);
same(undos(g, p), ["2 undo 2", null]);
same(undos(g), [null, null]);
same(undos(g, g), [null, null]);
// Undo and Undo again go back, and Redo and Redo again forth.
same(undos(p, q, g, "ann revert 2"), ["1 revert 1", "2 revert 4"]);
same(undos(p, q, g, "ann revert 2", g), ["1 revert 1", "2 revert 4"]);
same(undos(p, q, g, "ann revert 2", "ann revert 1"), [null, "1 revert 5"]);
same(undos(p, q, g, "ann revert 2", "ann revert 1", "ann revert 5"), ["1 revert 1", "2 revert 4"]);
same(undos(p, q, g, "ann revert 2", "ann revert 4"), ["2 revert 2", null]);
// A new call ends what can be done again.
same(undos(p, q, g, "ann revert 2", p), ["5 undo 5", null]);
same(undos(p, q, g, "ann revert 2", p, g), ["5 revert 5", null]);
// A revert of an older call, of a program's, or by a program is none of these.
same(undos(p, q, "ann revert 1"), ["3 undo 3", null]);
same(undos(p, q, "ann revert 1", g), ["3 revert 3", null]);
same(undos(p, g, "ann revert 2"), ["3 undo 3", null]);
same(undos(p, g, "agent-gw revert 1"), [null, null]);
// Undone calls come first, as without programs.
const undone = page.parseHistory("1 0 mute 1\nundone\n2 0 mute 2\nend 3\n");
same([page.undoOf(undone, new Map()), page.redoOf(undone, new Map())],
  [{ number: 1, line: "undo 3" }, { number: 2, line: "redo 3" }]);
console.log(`${tried} facts of the page's persons`);
