import { codecOf, free, lines, memberOf, sourceOf, withField } from "./lines.js";
import { soundOf } from "./levels.js";

// What the bridge counts, as /stats tells it. No function touches the page.

// A source from which nothing has come for so long is silent, in milliseconds.
const SILENT = 2000;
// What begins to lose many packets loses more than this share, and ceases below that one. Of a source it is the share
// of the last 10 s.
const LOSSY = 0.02, FAIR = 0.01, WINDOW = 10000;
// The payload types of sound: PCMU and the two of L16 (RFC 3551).
const SOUND_TYPES = [0, 10, 11];

// What a source has lost of late: its share, or null where nothing was due; whether that is much; and the counts that
// tell it. One that began anew is counted from its beginning.
function lossOf({ expected, lost }, before, at) {
  const isAnew = !before || before.expected > expected, old = isAnew ? [{ at, expected: 0, lost: 0 }] : before.counts;
  const counts = [...old.filter((one) => one.at >= at - WINDOW), { at, expected, lost }];
  const due = expected - counts[0].expected, share = due > 0 ? Math.max(0, lost - counts[0].lost) / due : null;
  const isLossy = before?.isLossy && !isAnew ? share >= FAIR : share > LOSSY;
  return { counts, share, isLossy };
}
// What a stream has lost, by the last report of its receiver.
function lossOut({ fraction }, before) {
  const share = typeof fraction === "number" ? fraction / 256 : null;
  return { share, isLossy: before?.isLossy ? share >= FAIR : share > LOSSY };
}

// The counts of sources by address and SSRC, those of streams by SSRC, and the senders that are no source. `before` is
// the count before, if any, and `at` the moment, in milliseconds.
export function parseStats(text, before = null, at = 0) {
  const told = JSON.parse(text), span = before ? at - before.at : null;
  const sources = new Map((told.sources ?? []).map((one) => [`${one.address} ${one.ssrc}`, one]));
  for (const [key, one] of sources) {
    const old = before?.sources.get(key);
    Object.assign(one, lossOf(one, old, at));
    one.sound = soundOf(one, old, span);
  }
  const streams = new Map((told.streams ?? []).map((one) => [one.out_ssrc, one]));
  for (const [ssrc, one] of streams) Object.assign(one, lossOut(one, before?.streams.get(ssrc)));
  return { at, span, sources, streams, strangers: told.strangers ?? [], figures: { desk: null, of: new Map() } };
}

// How long ago something came, in words.
export function agoInWords(ms) {
  if (ms < 1000) return "just now";
  if (ms < 60000) return `${Math.floor(ms / 1000)} s ago`;
  return ms < 3600000 ? `${Math.floor(ms / 60000)} min ago` : `${Math.floor(ms / 3600000)} h ago`;
}

// What came of a declared source, or null where nothing is known. A bridge counts by the address of its member.
export function countOf(stats, desk, ssrc) {
  if (!stats) return null;
  const address = memberOf(desk, sourceOf(desk, ssrc)?.member)?.address;
  return stats.sources.get(`${address} ${ssrc}`) ?? { packets: 0, lost: 0, ago_ms: null };
}
// Whether nothing comes of a source that is declared.
function isStill(count) { return !count || count.ago_ms === null || count.ago_ms >= SILENT; }
export function isSilent(stats, desk, ssrc) { return stats !== null && isStill(countOf(stats, desk, ssrc)); }
export function isLossy(stats, desk, ssrc) {
  return countOf(stats, desk, ssrc)?.isLossy === true;
}
export function countInWords(count) {
  if (count === null) return "";
  if (count.ago_ms === null) return "no packet came";
  const late = count.share > 0 ? `, ${(100 * count.share).toFixed(1)} percent of late` : "";
  const jitter = typeof count.jitter_ms === "number" ? `, jitter ${count.jitter_ms} ms` : "";
  const told = `${count.packets} packets, ${count.lost} lost${late}${jitter}, the last one ${agoInWords(count.ago_ms)}`;
  return `${told}${whyInWords(count)}`;
}
// Why a source isn't heard, though packets of it come.
function whyInWords({ bad_payload: bad, bad_type: type, silent_ms: silent }) {
  const dropped = bad > 0 ? `; ${bad} dropped as no sound of its room, the last one of type ${type}` : "";
  return silent >= SILENT ? `${dropped}; silent for ${Math.floor(silent / 1000)} s of its sound` : dropped;
}
// What the receiver of a stream says of it.
export function streamInWords(count) {
  const percent = count && count.share !== null ? `${(100 * count.share).toFixed(1)} percent lost` : "";
  const times = [["jitter", count?.jitter_ms], ["round trip", count?.round_trip_ms]];
  const words = times.flatMap(([what, ms]) => (typeof ms === "number" ? [`${what} ${ms} ms`] : []));
  return [percent, ...words].filter(Boolean).join(", ") || "no report came";
}

// The figures of a member: the level of its loudest source and whether one speaks, and the worst of the loss, jitter
// and round trip of its sources and of the streams to it. What isn't known is null.
export const UNKNOWN = { level: null, isSpeaking: false, lossIn: null, jitter: null, lossOut: null, trip: null,
  isSilent: false, isLosingIn: false, isLosingOut: false, look: "" };
const most = (a, b) => (typeof b !== "number" ? a : Math.max(a ?? b, b));
export function figuresOf(desk, stats, member) {
  if (!stats) return UNKNOWN;
  const { figures } = stats;
  if (figures.desk !== desk) stats.figures = { desk, of: new Map() };
  const { of } = stats.figures;
  if (!of.has(member.member)) of.set(member.member, countedOf(desk, stats, member));
  return of.get(member.member);
}
function countedOf(desk, stats, { member, address, mix }) {
  const all = { ...UNKNOWN };
  const keyed = withField(desk.sources, "member", member).map(({ ssrc }) => `${address} ${ssrc}`);
  keyed.forEach((key, place) => addSource(all, stats.sources.get(key), place));
  addStream(all, stats.streams.get(mix));
  for (const { ssrc } of withField(desk.slots, "member", member)) addStream(all, stats.streams.get(ssrc));
  all.look += `${all.isLosingOut ? "o" : ""}${all.isSpeaking ? "v" : ""}`;
  return all;
}
function addSource(all, count, place) {
  const isQuiet = isStill(count);
  if (isQuiet || count.isLossy) all.look += `${isQuiet ? "s" : "l"}${place}`;
  all.isSilent ||= isQuiet;
  if (isQuiet) return;
  all.isLosingIn ||= count.isLossy;
  all.isSpeaking ||= count.sound.isSpeaking;
  all.level = most(all.level, count.sound.level);
  all.lossIn = most(all.lossIn, count.share);
  all.jitter = most(all.jitter, count.jitter_ms);
}
function addStream(all, count) {
  if (!count) return;
  all.isLosingOut ||= count.isLossy;
  all.lossOut = most(all.lossOut, count.share);
  all.trip = most(all.trip, count.round_trip_ms);
}

// The rooms in which a source fell silent or began to lose many packets between two counts, a stream began to lose
// many, or somebody began to speak, or ceased to.
export function turnedRooms(desk, before, after) {
  const turned = desk.members.filter((member) =>
    figuresOf(desk, before, member).look !== figuresOf(desk, after, member).look);
  return new Set(turned.map(({ room }) => room));
}

// An unknown sender, with what a form to add it as a source is filled in with: its SSRC, the kind that its payload type
// hints at, and the member of its address if there is one. One whose SSRC is a source sends from elsewhere.
function strangerOf(desk, { address, ssrc, payload_type: type, packets }) {
  const member = desk.members.find((one) => one.address === address)?.member ?? null;
  const kind = SOUND_TYPES.includes(type) ? "audio" : "video";
  return { address, ssrc, type, packets, member, kind, isElsewhere: sourceOf(desk, ssrc) !== undefined };
}

// The unknown senders, but for those that have become sources meanwhile.
export function strangersIn(stats, desk) {
  const isOf = (ssrc, address) => memberOf(desk, sourceOf(desk, ssrc)?.member)?.address === address;
  const unknown = (stats?.strangers ?? []).filter(({ ssrc, address }) => !isOf(ssrc, address));
  return unknown.map((one) => strangerOf(desk, one));
}

// What brings somebody into a room as one group: a member with numbers of the page's choice, its sources, which are
// what comes from its address already, and a slot if it sees a picture.
export function newcomer(desk, stats, { room, address, sees }) {
  const own = strangersIn(stats, desk).filter((one) => one.address === address && !one.isElsewhere);
  const unused = (least) => {
    const number = free(desk, "ssrc", least);
    return own.some(({ ssrc }) => ssrc === number) ? unused(number + 1) : number;
  };
  const member = free(desk, "member", 10), codec = codecOf(desk, { room, codec: "" });
  const parts = [lines.addMember({ member, room, address, codec, ssrc: unused(9001) }),
    ...own.map(({ ssrc, kind }) => lines.addSource({ ssrc, member, kind }))];
  if (sees) parts.push(lines.addSlot({ ssrc: unused(501), member, index: 0 }));
  return { member, parts };
}
