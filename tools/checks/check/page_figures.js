// Tries what the page makes of a bridge's counts: node page_run.mjs ALL page_figures.js.
"use strict";
const assert = require("node:assert");
const { text } = require("./page_desk.js");
const { page } = globalThis;

const desk = page.parseDesk(text);
let tried = 0;
function same(got, wanted) {
  assert.deepStrictEqual(got, wanted);
  tried += 1;
}

// What the bridge counts: a source is found by the address of its member, and is silent after two seconds.
const stats = page.parseStats(JSON.stringify({
  sources: [{ address: "127.0.0.1:6000", ssrc: 101, packets: 9, lost: 1, ago_ms: 1999 },
    { address: "127.0.0.1:6000", ssrc: 201, packets: 7, lost: 0, ago_ms: 2000 },
    { address: "127.0.0.1:6000", ssrc: 202, packets: 5, lost: 0, ago_ms: 3 }],
  strangers: [{ address: "127.0.0.1:6002", ssrc: 777, payload_type: 0, packets: 3 },
    { address: "127.0.0.1:9", ssrc: 778, payload_type: 96, packets: 1 },
    { address: "127.0.0.1:9", ssrc: 202, payload_type: 96, packets: 1 },
    { address: "127.0.0.1:6002", ssrc: 202, payload_type: 0, packets: 8 }],
}));
same([101, 201, 202, 102].map((ssrc) => page.isSilent(stats, desk, ssrc)), [false, true, true, true]);
same([101, 999].map((ssrc) => page.isSilent(null, desk, ssrc)), [false, false]);
same([101, 201, 202].map((ssrc) => page.countInWords(page.countOf(stats, desk, ssrc))),
  ["9 packets, 1 lost, the last one 1 s ago", "7 packets, 0 lost, the last one 2 s ago", "no packet came"]);
same(page.countInWords(page.countOf(null, desk, 101)), "");
const whys = (one) => page.countInWords({ packets: 9, lost: 0, ago_ms: 3, ...one });
same([{ bad_payload: 0, bad_type: null, silent_ms: 1999 }, { bad_payload: 22, bad_type: 8, silent_ms: null },
  { bad_payload: 0, bad_type: null, silent_ms: 2999 }, {}].map(whys).map((words) => words.split(";").slice(1)),
[[], [" 22 dropped as no sound of its room, the last one of type 8"], [" silent for 2 s of its sound"], []]);
same([0, 999, 1000, 59999, 60000, 3599999, 3600000].map(page.agoInWords),
  ["just now", "just now", "1 s ago", "59 s ago", "1 min ago", "59 min ago", "1 h ago"]);
same(page.strangersIn(stats, desk), [
  { address: "127.0.0.1:6002", ssrc: 777, type: 0, packets: 3, member: 11, kind: "audio", isElsewhere: false },
  { address: "127.0.0.1:9", ssrc: 778, type: 96, packets: 1, member: null, kind: "video", isElsewhere: false },
  { address: "127.0.0.1:9", ssrc: 202, type: 96, packets: 1, member: null, kind: "video", isElsewhere: true }]);
same(page.strangersIn(null, desk), []);
same([...page.turnedRooms(desk, null, stats)], [1]);
same([...page.turnedRooms(desk, stats, stats)], []);
same([page.parseStats("{}").strangers, page.parseStats("{}").sources.size], [[], 0]);

// A source begins to lose many at over 2 percent of the last 10 s, and ceases under 1. One that began anew is counted
// from its beginning.
const lossOf = (expected, lost, before, at = 0) => page.parseStats(JSON.stringify({
  sources: [{ address: "127.0.0.1:6000", ssrc: 101, packets: 1, expected, lost, ago_ms: 3, jitter_ms: 4 }] }),
before, at);
const fair = lossOf(100, 2, null), many = lossOf(200, 5, fair);
same([fair, many, lossOf(300, 5, many), lossOf(500, 5, many), lossOf(501, 5, many), lossOf(50, 1, many),
  lossOf(50, 2, many)].map((one) => page.isLossy(one, desk, 101)), [false, true, true, true, false, false, true]);
let slides = lossOf(1000, 170, null);
same([[1100, 2000], [1400, 10000], [1500, 10001], [1600, 12001]].map(([expected, at]) => {
  slides = lossOf(expected, 170, slides, at);
  return page.isLossy(slides, desk, 101);
}), [true, true, false, false]);
same(page.countInWords(page.countOf(many, desk, 101)),
  "1 packets, 5 lost, 2.5 percent of late, jitter 4 ms, the last one just now");
const still = lossOf(200, 5, lossOf(200, 5, many, 9000), 19001);
same([page.figuresOf(desk, still, desk.members[0]).lossIn, page.isLossy(still, desk, 101)], [null, false]);
same([[many, desk, 999], [null, desk, 101]].map((one) => page.isLossy(...one)), [false, false]);
same([...page.turnedRooms(desk, fair, many)], [1]);

// The level of a span: a square wave as loud as can be, a sine wave, the example of FORMATS, and no sample.
same([[8000, 8000 * 2 ** 20], [160, 80 * 2 ** 20], [8000, 7626100], [160, 0], [0, 0]].map(([samples, energy]) =>
  page.levelOf(samples, energy).toFixed(1)), ["0.0", "-3.0", "-30.4", "-127.0", "-127.0"]);

// Who speaks, by quarters of a second of 2,000 samples: from two over -45 dBov in a row on, until four under -52. A
// quarter between the two ends a row.
const energies = { l: 66318, m: 66317, n: 13233, q: 13232 };
const none = { isSpeaking: false, loud: 0, quiet: 0 };
const heard = (quarters, ms = 250) => [...quarters].map((one) => [one === "0" ? 0 : 2000, energies[one] ?? 0])
  .reduce((before, [samples, energy]) => page.speechAfter(before, samples, energy, ms), none).isSpeaking;
same(["", "l", "ll", "lml", "lqll", "mmmm"].map((one) => heard(one)), [false, false, true, false, true, false]);
same(["llqqq", "llqqqq", "llqqqnqqq", "ll0000", "llnnnn", "llqqqlqqq"].map((one) => heard(one)),
  [true, false, true, false, true, true]);
// Who counts once a second knows one second: all four of its quarters are as loud as it is.
same([["l", 1000], ["lq", 1000], ["l", 500], ["llq", 500], ["llqq", 500], ["l", 374]].map((one) => heard(...one)),
  [true, false, true, true, false, false]);

// The sound of sources, by two counts. Before the first one, of a picture, and of an older bridge nothing is known.
const soundsOf = (samples, energy, before, at) => page.parseStats(JSON.stringify({ sources: [
  { address: "127.0.0.1:6000", ssrc: 201, packets: 1, expected: 1, lost: 0, ago_ms: 3, samples, energy },
  { address: "127.0.0.1:6000", ssrc: 101, packets: 1, expected: 1, lost: 0, ago_ms: 3, samples: null, energy: null },
  { address: "127.0.0.1:6000", ssrc: 102, packets: 1, expected: 1, lost: 0, ago_ms: 3 }] }), before, at);
const figures = (counted, place = 0) => page.figuresOf(desk, counted, desk.members[place]);
const sound = (counted) => [figures(counted).level?.toFixed(1) ?? null, figures(counted).isSpeaking];
const first = soundsOf(80000, 10 ** 9, null, 500), second = soundsOf(88000, 10 ** 9 + 7626100, first, 1500);
same([first, second].map(sound), [[null, false], ["-30.4", true]]);
same([soundsOf(88000, 10 ** 9 + 7626100, second, 2500), soundsOf(8000, 7626100, first, 1500),
  soundsOf(88000, 10 ** 9 + 7626100, first, 5501), soundsOf(null, null, first, 1500),
  soundsOf(8000, 7626100, soundsOf(null, null, null, 500), 1500)].map(sound),
  [["-127.0", false], ["-30.4", true], [null, false], [null, false], ["-30.4", true]]);
same([...page.turnedRooms(desk, first, second)], [1]);
const loud = (quarters) => sound([1, 2, 3].slice(0, quarters).reduce((before, one) =>
  soundsOf(2000 * one, 66318 * one, before, 250 * one), null));
same([1, 2, 3].map(loud), [[null, false], ["-45.0", false], ["-45.0", true]]);
same([[null], [-127], [-30.4], [-30.4, true], [-30.4, true, true]].map((one) => page.levelInWords(...one)),
  ["level not known", "no sound", "−30 dBov", "speaks, −30 dBov", "speaks while muted, −30 dBov"]);
same([0, 255, 384].map(page.gainInWords), ["x0.00", "x1.00", "x1.50"]);
same([null, 1000, 2040, 5000, 5001].map(page.spanInWords), ["", "last 1 s", "last 2 s", "last 5 s", ""]);

// The figures of a member are the worst of its sources that aren't silent, and of the streams to it.
const reported = (fraction, before = null, more = {}) => page.parseStats(JSON.stringify({
  sources: [{ address: "127.0.0.1:6002", ssrc: 103, packets: 1, expected: 200, lost: 9, ago_ms: 1, jitter_ms: 7 },
    { address: "127.0.0.1:6002", ssrc: 202, packets: 1, expected: 200, lost: 1, ago_ms: 1, jitter_ms: 40, ...more }],
  streams: [{ out_ssrc: 9002, fraction, round_trip_ms: 35 }, { out_ssrc: 501, fraction: 1, round_trip_ms: null },
    { out_ssrc: 502, fraction: null, jitter_ms: null, round_trip_ms: 280 }, { out_ssrc: 9001, fraction: 99 }] }),
before);
const worst = figures(reported(5), 1), { look, ...told } = worst;
same(told, { level: null, isSpeaking: false, lossIn: 0.045, jitter: 40, lossOut: 5 / 256, trip: 280, isSilent: false,
  isLosingIn: true, isLosingOut: false });
same([figures(reported(5, null, { ago_ms: 2000 }), 1)].map((one) => [one.isSilent, one.jitter, one.isLosingIn]),
  [[true, 7, true]]);
same([figures(null), figures(reported(5), 2)].map((one) => [one.lossIn, one.jitter, one.lossOut, one.trip,
  one.isSilent]), [[null, null, null, null, false], [null, null, null, null, false]]);
// A stream begins to lose many at over 2 percent of its last report, and ceases under 1.
const out = (...fractions) => figures(fractions.reduce((before, one) => reported(one, before), null), 1).isLosingOut;
same([[5], [6], [6, 3], [6, 2], [6, 2, 5]].map((one) => out(...one)), [false, true, true, false, false]);
same([reported(6).streams.get(9002), reported(6).streams.get(502), undefined].map(page.streamInWords),
  ["2.3 percent lost, round trip 35 ms", "round trip 280 ms", "no report came"]);

// Trouble: a silent source comes first, then what loses many, then a floor that is muted.
const silent = { ...desk, mutes: new Set([201]) };
const quiet = page.parseStats(JSON.stringify({ sources: [[101, 0], [102, 3], [201, 0]].map(([ssrc, lost]) => (
  { address: "127.0.0.1:6000", ssrc, packets: 9, expected: 100, lost, ago_ms: 1 })) }));
const ill = page.parseStats(JSON.stringify({ sources: [[6000, 101], [6000, 102], [6000, 201], [6002, 202], [6002, 103]]
  .map(([port, ssrc]) => ({ address: `127.0.0.1:${port}`, ssrc, packets: 9, expected: 9, lost: 0, ago_ms: 1 })),
streams: [{ out_ssrc: 9002, fraction: 26 }] }));
const troubles = (of, counted) => of.members.map((member) => page.troubleOf(of, counted, member));
same([troubles(desk, null), troubles(desk, stats), troubles(desk, quiet), troubles(silent, null), troubles(desk, ill)],
  [["", "", ""], ["silent", "silent", ""], ["losing in", "silent", ""], ["muted floor", "", ""],
    ["", "losing out", ""]]);
same(page.troubleOf({ ...desk, sources: [], slots: [] }, quiet, desk.members[1]), "");
// The numbers are filters: each counts those that it shows.
same(page.tallyOf(desk, quiet, desk.members), { members: 3, speaking: 0, silent: 1, losing: 1, muted: 1, weight: 4 });
same(page.tallyOf(silent, null, []), { members: 0, speaking: 0, silent: 0, losing: 0, muted: 0, weight: 0 });
const shown = (counted) => ["speaking", "silent", "losing", "muted"].map((filter) => desk.members.filter((member) =>
  page.isCounted(desk, counted, filter, member)).map(({ member }) => member));
same([shown(quiet), shown(second), shown(soundsOf(88000, 10 ** 9 + 1000, first, 1500)), shown(ill)],
  [[[], [11], [10], [11]], [[10], [11], [], [11]], [[], [11], [], [11]], [[], [], [11], [11]]]);
same(page.overview(desk, {}, "", "number", (member) => member.member === 12).map(({ room }) => room), [2]);
same(["trouble", "speaking"].map((sort) =>
  page.overview(desk, {}, "", sort, null, (room) => -room).map(({ room }) => room)), [[2, 1], [2, 1]]);

// Somebody comes by one group: what comes from the address already is its, and no number is used twice.
const guest = { room: 1, address: "127.0.0.1:9", sees: true };
const own = { address: "127.0.0.1:9", ssrc: 777, payload_type: 0, packets: 3 };
const comes = (strangers, more) =>
  page.newcomer(desk, page.parseStats(JSON.stringify({ strangers })), { ...guest, ...more });
same(comes([own]), { member: 13,
  parts: ["add-member 13 1 127.0.0.1:9 pcmu 9004 0 0", "add-source 777 13 audio", "add-slot 504 13 0 0 0"] });
same(comes([{ ...own, ssrc: 504, payload_type: 96 }]).parts.slice(1),
  ["add-source 504 13 video", "add-slot 505 13 0 0 0"]);
same(comes([{ ...own, address: "127.0.0.1:8" }, { ...own, ssrc: 201 }], { sees: false }).parts.length, 1);
same(page.newcomer(desk, null, { ...guest, sees: false }).parts.length, 1);

// A trace has the figures of two minutes. Its line goes from left to right, and has a gap where nothing is known.
const sample = (level, trip = null) => ({ level, lossIn: 0.05, jitter: 30, lossOut: null, trip });
const trace = [[0, -60], [60000, -35], [90000, null], [120000, -10]].reduce((before, [moment, level]) =>
  page.traced(before, moment, sample(level, 600)), []);
same(trace, [[60000, -35, 0.05, 30, null, 600], [90000, null, 0.05, 30, null, 600],
  [120000, -10, 0.05, 30, null, 600]]);
same([0, 1, 2, 3, 4].map((place) => page.plotted(trace, place, 120000)),
  ["M60.0 10.0h.1M120.0 0.0h.1", "M60.0 10.0h.1L90.0 10.0L120.0 10.0", "M60.0 10.0h.1L90.0 10.0L120.0 10.0", "",
    "M60.0 0.0h.1L90.0 0.0L120.0 0.0"]);
same(page.plotted([[0, -90, 0.4, 0, 0, 0], [120000, -90, 0.2, 0, 0, 0]], 0, 120000), "M0.0 20.0h.1L120.0 20.0");
same(page.plotted([[0, -90, 0.4, 0, 0, 0], [120000, -90, 0.2, 0, 0, 0]], 1, 120000), "M0.0 0.0h.1L120.0 10.0");
const both = page.tracedAll(new Map([[10, [[ill.at - 5, null, 0, 0, 0, 0]]], [99, []]]), desk, ill);
same([...both].map(([member, samples]) => [member, samples.length]), [[10, 2], [11, 1], [12, 1]]);

console.log(`${tried} tries of what the page makes of counts, no fault`);
