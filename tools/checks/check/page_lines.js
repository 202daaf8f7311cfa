// Tries the page's functions that touch no page: node page_run.mjs ALL page_lines.js.
"use strict";
const assert = require("node:assert");
const { page } = globalThis;

const { text } = require("./page_desk.js");
const desk = page.parseDesk(text);
const slot = (ssrc) => desk.slots.find((s) => s.ssrc === ssrc);
let tried = 0;
function same(got, wanted) {
  assert.deepStrictEqual(got, wanted);
  tried += 1;
}

same(desk.version, 17);
same(desk.rooms, [1, 2]);
same(desk.members[1], { place: 1, member: 11, room: 1, address: "127.0.0.1:6002", codec: "l16", mix: 9002 });
same(desk.rows.length, 18);
same([1, 2].map((room) => page.isMusic(desk, room)), [false, false]);
same([desk.named, desk.state], [3, "0a-4"]);

// A slot shows its subscription, else at index 0 the pin, else the floor holder's least video source.
same(page.seen(desk, slot(502)), { source: 102, by: "sub", why: "" });
same(page.seen(desk, slot(501)), { source: 101, by: "pin", why: "" });
same(page.seen(desk, slot(503)), { source: null, by: "pin", why: "101 is its own" });
const unpinned = { ...desk, pins: new Map() };
same(page.seen(unpinned, slot(501)), { source: 101, by: "floor", why: "" });
same(page.seen({ ...unpinned, mutes: new Set([101]) }, slot(501)), { source: null, by: "floor", why: "101 is muted" });
same(page.seen({ ...unpinned, floors: new Map() }, slot(501)), { source: null, by: null, why: "nothing is chosen" });
same(page.seen({ ...desk, subs: new Map() }, slot(502)), { source: null, by: null, why: "nothing is chosen" });

same(page.heard(desk, desk.members[1]), [{ ssrc: 201, gain: 128, muted: false }]);
same(page.heard(desk, desk.members[0]), [{ ssrc: 202, gain: 256, muted: true }]);
same(page.heard(desk, desk.members[2]), []);

same(page.dropped(desk, { member: 10 }, { room: 2 }), "move-member 10 2");
same(page.dropped(desk, { member: 10 }, { room: 1 }), null);
same(page.dropped(desk, { source: 103 }, { slot: 501 }), "subscribe 501 103");
same(page.dropped(desk, { source: 102 }, { slot: 502 }), null);
same(page.dropped(desk, { source: 102 }, { room: 2 }), null);

const { lines } = page;
same(lines.addMember({ member: "13", room: "1", address: "10.0.0.1:5000", codec: "pcmu", ssrc: "9004" }),
  "add-member 13 1 10.0.0.1:5000 pcmu 9004 0 0");
same(lines.addSlot({ ssrc: "504", member: "10", index: "1" }), "add-slot 504 10 1 0 0");
same(lines.addSource({ ssrc: "104", member: "10", kind: "video" }), "add-source 104 10 video");
same(lines.setGain(11, 201, 512), "set-gain 11 201 512");
same(lines.group(["mute 201", "unpin 1"]), "group mute 201 / unpin 1");
same([lines.undo(17), lines.revert(7)], ["undo 17", "revert 7"]);
same(page.free(desk, "ssrc", 101), 104);
same(page.free(desk, "room", 1), 3);
same(page.suggested(desk)[0], ["add-room", "room", 3]);
same(page.videosFor(desk, slot(502)), [101, 103]);

// A music room: its rate is told beside its number, its members have l16 where nothing was chosen, and moves stay at a
// rate.
const music = page.parseDesk(text.replace("room 2\n", "room 2 44100\nroom 3 44100\n").replace("pcmu 9003", "l16 9003"));
same([music.rooms, music.rows.length, music.rows[1]], [[1, 2, 3], 19, "room 2 44100"]);
same(music.rooms.map((room) => page.isMusic(music, room)), [false, true, true]);
same(music.members.map((member) => page.roomsFor(music, member)), [[], [], [3]]);
same(desk.members.map((member) => page.roomsFor(desk, member)), [[2], [2], [1]]);
same(["1", "2", "3"].map((room) => page.codecOf(music, { room, codec: "" })), ["pcmu", "l16", "l16"]);
same(page.codecOf(music, { room: "2", codec: "pcmu" }), "pcmu");
same(page.codecOf(music, { room: "1", codec: "l16" }), "l16");
same([lines.addRoom("4", "44100"), lines.addRoom("5", "8000"), lines.addRoom(6)],
  ["add-room 4 44100", "add-room 5", "add-room 6"]);
const player = { member: "13", room: "2", address: "10.0.0.1:5000", codec: "", ssrc: "9004" };
same(lines.addMember(player, page.codecOf(music, player)), "add-member 13 2 10.0.0.1:5000 l16 9004 0 0");

same(page.inWords("ok 3").good, true);
same(page.inWords("no 7 14 NewerCommand 9").text.includes("another change came first"), true);
same(page.inWords("no 6 20 PartRefused 1 2 NoRoom").text.includes("Command 2 of it: there is no such room"), true);
same(page.inWords("fault 2 6 BadNumber").text.includes("at word 2"), true);
same(page.inWords("no 4 21 RateMismatch").text,
  "refused (21 RateMismatch): the room has another rate: one of 44100 Hz takes l16 alone, and members move between "
    + "rooms of one rate.");
same(page.inWords("no 4 20 PartRefused 0 21 RateMismatch").text.includes("Command 1 of it: the room has another rate"),
  true);
same(page.inWords("no 4 9 BadValue").text.includes("rate 8000 or 44100"), true);
same(page.inWords("lost").good, false);
same(page.replyInWords(200, "ok 3"), page.inWords("ok 3"));
same(page.replyInWords(503, "Busy: all seats").text.includes("needs a seat"), true);
same(page.replyInWords(413, "").text, "a call is one line of up to 4096 octets");
same(page.replyInWords(400, "NoLine: a call"), { good: false, text: "NoLine: a call" });

same(page.changes(["room 1", "mute 1"], ["room 1", "room 2"]), ["- mute 1", "+ room 2"]);
same(page.changes(["room 1"], ["room 1", "room 2 44100"]), ["+ room 2 44100"]);
// Names: an SSRC has its source's name, or else its member's.
const named = page.parseNames('names 3\n{"member 10":"Bob","source 102":"camera","room 1":"Sales","odd":7}');
same(named, { version: 3, names: { "member 10": "Bob", "source 102": "camera", "room 1": "Sales" } });
same([201, 102, 103].map((ssrc) => page.labelled(page.sourceName(named.names, desk, ssrc), ssrc)),
  ["Bob (201)", "camera (102)", "103"]);
same(page.renamed({ "member 10": "Bob" }, "member", 10, "  "), {});
same(page.renamed({ "member 10": "Bob" }, "room", 2, " بوب 🎤 "), { "member 10": "Bob", "room 2": "بوب 🎤" });
same([...page.cut("🎤".repeat(201))].length, 200);
same(["no 3 Unsaved", "no 3 NoNames"].map((said) => page.nameRefusal(200, said).slice(0, 17)),
  ["the file of names", "that is no name."]);

// The overview: what a line says, what is found, and in which order.
const line = page.memberLine(desk, named.names, desk.members[0]);
same([line.name, line.floor, line.muted, line.odd, line.sends.map((s) => s.ssrc)],
  ["Bob", true, false, false, [101, 102, 201]]);
same(page.memberLine(desk, named.names, desk.members[1]).sees.map((s) => s.label), ["Bob (101)", "camera (102)"]);
const silent = { ...desk, mutes: new Set([201]) };
same(page.memberLine(silent, {}, desk.members[0]).odd, true);
same(page.roomLine(silent, named.names, 1).odd, true);
same([page.roomLine(desk, named.names, 1).members, page.roomLine(desk, named.names, 1).muted,
  page.roomLine(desk, named.names, 1).odd], [2, 1, false]);
const found = (search, sort = "number") =>
  page.overview(desk, named.names, search, sort).map(({ room, members }) => [room, members.map((m) => m.member)]);
same(found(""), [[1, [10, 11]], [2, [12]]]);
same(found("bob"), [[1, [10]]]);
same(found("SALES"), [[1, [10, 11]]]);
same([found("502"), found("127.0.0.1:6004"), found("nobody")], [[[1, [11]]], [[2, [12]]], []]);
same(page.overview({ ...desk, rooms: [2, 1] }, {}, "", "members").map(({ room }) => room), [1, 2]);
same(page.overview(desk, { "room 2": "a", "room 1": "b" }, "", "name").map(({ room }) => room), [2, 1]);

// Many members at once: one call, and only what it takes.
same([page.grouped([]), page.grouped(["mute 1"]), page.grouped(["mute 1", "mute 2"])],
  [null, "mute 1", "group mute 1 / mute 2"]);
same([page.toggled(desk, [10, 11]), page.toggled(desk, [11]), page.toggled(desk, [12])],
  [["mute 201"], ["unmute 202"], []]);
same([page.othersMuted(desk, 11), page.othersMuted(desk, 10)], [["mute 201"], []]);
same(page.movedAll(desk, [10, 12, 99], 2), ["move-member 10 2"]);
same(page.goesAlong(desk, 1), "2 members, 5 sources, 3 slots");

// A change touches the rooms of its rows alone, and one of places none.
const after = (lines) => {
  const next = page.parseDesk(lines);
  return [...page.changedRooms(desk, next, page.changes(desk.rows, next.rows))];
};
same(after(text.replace("mute 202\n", "mute 201\n")), [1]);
same(after(text.replace("member 2 12 2", "member 1 12 2").replace("member 1 11 1", "member 2 11 1")), []);
same(after(text.replace("member 2 12 2", "member 2 12 1")).sort(), [1, 2]);
same(after(text.replace("sub 502 102\n", "")), [1]);
same(after(text.replace("gain 11 201 128", "gain 11 201 129")), [1]);

// The history of the bridge: what an undo takes back is the last call in force, and what a redo does again the last one
// that was undone.
const past = page.parseHistory(`1 0 add-room 1 8000
2 1 group mute 201 / move-member 10 1
undone
4 0 unmute 202
3 15 mute 202
end 6
`);
same(past, { version: 6, done: [{ number: 1, operator: 0, line: "add-room 1 8000" },
  { number: 2, operator: 1, line: "group mute 201 / move-member 10 1" }],
  undone: [{ number: 4, operator: 0, line: "unmute 202" }, { number: 3, operator: 15, line: "mute 202" }],
  known: new Map([[1, "add-room 1 8000"], [2, "group mute 201 / move-member 10 1"], [4, "unmute 202"],
    [3, "mute 202"]]) });
same([page.parseHistory("end 0\n"), page.parseHistory("1 0 mute 201\nend 1\n").undone],
  [{ version: 0, done: [], undone: [], known: new Map() }, []]);

// Undos lead to the desk behind an earlier call, and redos to that behind an undone one.
const way = (number) => {
  const found = page.wayTo(past, number);
  return found && [found.word, found.calls.map((one) => one.number)];
};
same([1, 2, 3, 4, 9].map(way), [["undo", [2]], ["undo", []], ["redo", [3]], ["redo", [3, 4]], null]);
same(page.wayWords(page.wayTo(past, 1), false), "One undo leads to the desk right behind it: 2.");
same(page.wayWords(page.wayTo(past, 4), false), "2 redos lead to the desk right behind it: 3, 4.");
same(page.wayWords(page.wayTo(past, 2), true), "An undo takes it back.");

// Calls name what has a name, and keep all of their words.
const told = (line, names = named.names) => page.worded(names, desk, line).replace(/[\u2068\u2069]/g, "");
const untold = ["mute 201", "unmute 102", "mute 103", "move-member 10 1", "set-gain 11 201 128", "undo 4"];
same(untold.map((line) => told(line)),
  ["mute Bob (201)", "unmute camera (102)", "mute 103", "move-member Bob (10) Sales (1)", "set-gain 11 Bob (201) 128",
    "undo 4"]);
same(told("group mute 201 / give-floor 1 10"), "group mute Bob (201) / give-floor Sales (1) Bob (10)");
same(told("add-member 10 1 127.0.0.1:6000 pcmu 201 0 0"),
  "add-member Bob (10) Sales (1) 127.0.0.1:6000 pcmu 201 0 0");
same(told("add-slot 201 10 0 0 0"), "add-slot 201 Bob (10) 0 0 0");
same(told("mute 201", { "source 201": "n".repeat(200) }), `mute ${"n".repeat(24)}\u2026 (201)`);
same(page.worded({ "member 10": "\u0628" }, desk, "mute 201"), "mute \u2068\u0628\u2069 (201)");

// A revert: the history leaves out what it took back. The page knows that call from the history before, and says what
// was reverted, or brought back by the revert of a revert.
const before = page.parseHistory("7 0 mute 201\n8 1 mute 202\n9 1 unmute 202\nend 9\n");
const reverted = page.parseHistory("8 1 mute 202\n9 1 unmute 202\n10 2 revert 7\nend 10\n", before);
const back = page.parseHistory("7 0 mute 201\n8 1 mute 202\n9 1 unmute 202\n11 2 revert 10\nend 11\n", reverted);
const again = page.parseHistory("8 1 mute 202\n9 1 unmute 202\n10 2 revert 7\n12 2 revert 11\nend 12\n", back);
const plain = (words) => words.replace(/[\u2068\u2069]/g, "");
const saidLast = ({ done, undone, known }) => {
  const { number, line } = [...undone, ...done].pop();
  return [page.worded(named.names, desk, line, known), page.callWords(named.names, desk, number, known)].map(plain);
};
same([...reverted.known.keys()], [8, 9, 10, 7]);
same(saidLast(before), ["unmute 202", "unmute 202"]);
same(saidLast(reverted), ["reverted mute Bob (201)", "the revert of mute Bob (201)"]);
same(saidLast(back), ["brought back mute Bob (201)", "the return of mute Bob (201)"]);
same(saidLast(again), ["reverted mute Bob (201)", "the revert of mute Bob (201)"]);
same([...again.known.keys()].sort((a, b) => a - b), [7, 8, 9, 10, 11, 12]);
same(saidLast(page.parseHistory("10 2 revert 7\nend 10\n")), ["reverted call 7", "the revert of call 7"]);
same(["revert 7", "revert 99", "revert x"].map((line) => told(line)),
  ["reverted call 7", "reverted call 99", "revert x"]);
same(plain(page.callWords(named.names, desk, 7, reverted.known)), "mute Bob (201)");
const long = `mute \u2068${"\u0628".repeat(50)}\u2069 (201)`;
same(["mute 201", long, "n".repeat(33)].map(page.begun),
  ["mute 201", `mute \u2068${"\u0628".repeat(26)}\u2069\u2026`, `${"n".repeat(32)}\u2026`]);
// One that was undone is known, too. What another bridge says under the same numbers isn't mixed with it.
same(saidLast(page.parseHistory("undone\n10 2 revert 7\nend 11\n", reverted)), saidLast(reverted));
same([...page.parseHistory("8 1 mute 101\n10 2 revert 7\nend 10\n", before).known.keys()], [8, 10]);
// A faulty bridge, whose reverts name themselves or each other, keeps nobody waiting.
same(saidLast(page.parseHistory("9 0 revert 9\nend 9\n")), ["reverted call 9", "the revert of call 9"]);
same(saidLast(page.parseHistory("8 0 revert 9\n9 0 revert 8\nend 9\n")), ["reverted call 8", "the revert of call 8"]);

// The way to an earlier desk goes back past what reverts took back, which the history leaves out.
const numbersTo = (told, number) => page.wayTo(told, number)?.calls.map((one) => one.number);
same([8, 9, 10].map((number) => numbersTo(reverted, number)), [[10, 9], [10], []]);
same(numbersTo(page.parseHistory("1 0 mute 201\n3 0 mute 202\n4 0 revert 2\nend 4\n"), 1), [4, 3, 2]);
same(page.wayWords(page.wayTo(reverted, 8), false), "2 undos lead to the desk right behind it: 10, 9.");

// Why a revert is refused: the call that needs it, and who else would come or go.
const inTheWay = page.parseHistory("8 2 set-gain 11 201 128\n9 0 group mute 202 / subscribe 502 102\nend 20\n");
const refusedFor = (told, knows = { names: named.names, desk, past: inTheWay }) =>
  plain(page.inWords(`no 20 ${told}`, knows).text);
same(refusedFor("23 NotInForce"), "refused (23 NotInForce): it isn't in force any more.");
same(refusedFor("24 TooFar 256"), "refused (24 TooFar): it lies too far back: over 256 commands came since.");
same(["8 0 4 NoSource", "9 1 12 Full sources 2048", "3 0 1 Exists", "3 0 99 Odd"].map((told) =>
  refusedFor(`25 Conflict ${told}`).replace("refused (25 Conflict): ", "")), [
  "call 8, set-gain 11 Bob (201) 128 by operator 2, needs it (no such source).",
  "call 9, subscribe 502 camera (102) in a group by operator 0, needs it (the table would be full).",
  "call 3 needs it (what it adds would be there already).", "call 3 needs it (Odd)."]);
same(["member 10", "member 20", "room 1", "room 3", "source 201", "slot 501", "slot 9"].map((told) =>
  refusedFor(`26 Elsewhere ${told}`).replace("refused (26 Elsewhere): it would also ", "")),
  ["take member Bob (10) out.", "bring member 20 back.", "take room Sales (1) out.", "bring room 3 back.",
    "take source Bob (201) out.", "take slot 501 out.", "bring slot 9 back."]);
same(["26 Elsewhere member 20", "25 Conflict 8 0 4 NoSource"].map((told) => refusedFor(told, {})),
  ["refused (26 Elsewhere): it would also change whether member 20 is there.",
    "refused (25 Conflict): call 8 needs it (no such source)."]);
same(page.replyInWords(200, "no 20 23 NotInForce", {}), page.inWords("no 20 23 NotInForce"));
same(["no 20 25 Conflict 37 0 4 NoSource", "no 20 26 Elsewhere member 20", "ok 25"].map(page.callInTheWay),
  [37, null, null]);

// A saved desk makes its rows again, as `tools/bridge keep` does.
const kept = page.keptText(desk).trimEnd().split("\n");
same([kept.length, kept[0].startsWith("# the desk of version 17: FIRST_SEQ"), kept[2]],
  [3, true, "# end: 1 groups of 18 commands"]);
same(kept[1].split(" / ").filter((part) => /add-member 11|add-slot 501|sub|gain|floor/.test(part)),
  ["add-member 11 1 127.0.0.1:6002 l16 9002 994 0", "add-slot 501 11 0 999 1000", "subscribe 502 102",
    "set-gain 11 201 128", "give-floor 1 10"]);
same(page.groupsIn(page.keptText(desk)), [kept[1]]);
same([kept[1], kept.slice(0, 2).join("\n"), "", "# end: 0 groups of 0 commands\nadd-room 1"].map(page.groupsIn),
  [null, null, null, null]);
const large = page.parseDesk(Array.from({ length: 130 }, (_, room) => `room ${room}`).join("\n"));
same(page.groupsIn(page.keptText(large)).map((group) => group.split(" / ").length), [64, 64, 2]);

// The objects of rows and of lines, and what of them others have changed.
same(["member 0 10 1 127.0.0.1:6000 pcmu 9001 0 0", "source 101 10 video", "slot 501 11 0 0 0", "sub 502 102",
  "mute 202", "gain 11 201 128", "pin 1 101", "floor 1 10", "room 2 44100"].map(page.objectsOfRow),
  [["member 10", "room 1"], ["source 101", "member 10"], ["slot 501", "member 11"], ["slot 502"], ["source 202"],
    ["gain 11 201"], ["pin 1"], ["floor 1"], ["room 2"]]);
same(["mute 201", "set-gain 11 201 512", "group unmute 202 / give-floor 1 10", "undo 17", "move-member 10 2",
  "unsubscribe 502", "revert 7"].map(page.objectsOfLine), [["source 201"], ["gain 11 201"], ["source 202", "floor 1"],
  ["history"], ["member 10"], ["slot 502"], ["call 7"]]);
const muted = ["+ mute 201"], others = (before, now, rows, mine, sent, waiting) =>
  page.othersObjects(before, now, rows, new Set(mine), sent, waiting);
same(others(17, 18, muted, [], [], 0), ["history", "source 201"]);
same(others(17, 18, muted, [18], [], 0), []);
same(others(17, 18, muted, [], ["mute 201"], 1), []);
same(others(17, 19, ["+ mute 201", "- mute 202"], [19], ["unmute 202"], 0), ["history", "source 201"]);
same(others(17, 18, ["- member 2 12 2 a pcmu 1 0 0", "+ member 1 12 2 a pcmu 1 0 0", "- room 3"], [], [], 0),
  ["history", "room 3"]);

// Places: how many changes are held back, and what stands where meanwhile.
const plan = (...rooms) => rooms.map(([room, ...members]) => ({ room, members }));
same([[plan(), plan()], [plan([1, 10, 11]), plan([1, 10, 11])], [plan([1, 10, 11]), plan([1, 11])],
  [plan([1, 10], [2]), plan([1], [2, 10])], [plan([1], [2]), plan([2], [1])], [plan([1, 10, 11]), plan([1, 11, 10])],
  [plan(), plan([1, 10])]].map((pair) => page.placeChanges(...pair)), [0, 0, 1, 2, 1, 1, 2]);
same(page.inOldPlaces([{ key: 1, text: "a" }, { key: 2, text: "b" }], [{ key: 3 }, { key: 2, text: "c" }], "key"),
  [{ key: 1, text: "a", hasLeft: true }, { key: 2, text: "c" }]);

// The link: live, late from 4 s, gone from 10 s, and what the program says of its bridge.
same([0, 4000, 4001, 10000, 10001].map((ms) => page.linkOf("", ms)), ["live", "live", "late", "late", "gone"]);
same([page.linkOf("bridge", 0), page.linkOf("seats", 99999)], ["bridge", "seats"]);
same([["live", 0, "9:00"], ["late", 6900, "9:00"], ["gone", 12000, "9:00"], ["gone", 12000, null],
  ["bridge", 0, "9:00"], ["seats", 0, null], ["connecting", 0, null]].map((link) => page.linkInWords(...link)),
  ["Live", "Late: last news 6 s ago", "No news since 9:00 …", "No news yet …", "Bridge gone since 9:00 …",
    "No free seat …", "Asking the bridge"]);

console.log(`${tried} tries of the page's functions, no fault`);
