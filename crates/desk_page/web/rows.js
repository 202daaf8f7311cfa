// A member's row of the overview: its state, its name, its figures, what it sees and sends, and its mute.
import { memberOf } from "./lines.js";
import { labelled } from "./overview.js";
import { LEAST_LEVEL, levelInWords, spanInWords } from "./levels.js";
import { figuresOf } from "./stats.js";
import { desk, stats } from "./known.js";
import { at, bdi, does, el, soft, spoken } from "./view.js";

// What stands out of how a source's packets come: a class, and words.
export function fate({ isSilent: silent, isLossy: lossy }) {
  if (silent) return { mark: " silent", words: "no packet comes" };
  return lossy ? { mark: " lossy", words: "over 2 percent of the packets are lost" } : { mark: "", words: null };
}
// A member's state: a sign, a class and words.
export const STATES = { silent: ["\u2716", "warn", "silent: no packet comes"],
  "losing in": ["\u26a0", "bad", "losing over 2 percent of its packets"],
  "losing out": ["\u26a0", "bad", "losing over 2 percent of what it is sent"],
  "muted floor": ["\u2298", "bad", "has the floor and is muted"],
  muted: ["\u2298", "", "muted"], speaking: ["\u25cf", "good", "speaking"], "": ["", "", ""] };
function stateOf({ trouble, muted }, { isSpeaking }) {
  return STATES[trouble || (muted ? "muted" : isSpeaking ? "speaking" : "")];
}

// Figures in the words of a cell. From these on a jitter and a round trip stand out, in milliseconds.
const SHAKY = 30, FAR = 250;
const percent = (share) => (share === null ? "\u2013" : share < 0.0005 ? "0" : (100 * share).toFixed(1));
const whole = (ms) => (ms === null ? "\u2013" : String(ms));
export function cellsOf({ lossIn, isLosingIn, jitter, lossOut, isLosingOut, trip }) {
  return [["in", percent(lossIn), isLosingIn ? " bad" : ""], ["jitter", whole(jitter), jitter >= SHAKY ? " warn" : ""],
    ["out", percent(lossOut), isLosingOut ? " bad" : ""], ["trip", whole(trip), trip >= FAR ? " warn" : ""]];
}
// The same for a reader, without what isn't known.
function figuresInWords({ lossIn, jitter, lossOut, trip }) {
  const all = [["loss in", lossIn, `${percent(lossIn)} percent`], ["jitter", jitter, `${jitter} ms`],
    ["loss out", lossOut, `${percent(lossOut)} percent`], ["round trip", trip, `${trip} ms`]];
  return all.filter(([, value]) => value !== null).map(([what, , text]) => `${what} ${text}`).join(", ");
}

// A meter has ten steps, from -60 dBov on.
const LOWEST = -60, STEP = 5, STEPS = 10;
const stepOf = (level) => Math.min(STEPS, Math.max(0, Math.round((level - LOWEST) / STEP)));

// What changes in a row at each count, in the order of its cells: of each its class, its text and its attributes.
function figureCells(model, figures) {
  const [sign, kind, words] = stateOf(model, figures), { level, isSpeaking } = figures;
  const lookOf = { "data-step": level === null ? null : String(stepOf(level)),
    "aria-valuenow": String(level === null ? LEAST_LEVEL : Math.round(level)),
    "aria-valuetext": levelInWords(level, isSpeaking, model.muted) };
  return [[`state ${kind}`, sign, { title: words || null }], ["level", level === null ? "\u2013" : "", lookOf],
    ...cellsOf(figures).map(([name, text, stands]) => [`figure ${name}${stands}`, text, {}]),
    ["spoken", figuresInWords(figures), {}]];
}
const FIGURED = [0, 3, 4, 5, 6, 7, 8];
// Shows the figures of a row that is drawn, where they have changed.
function showFigures(row, model, figures) {
  const cells = figureCells(model, figures);
  cells.forEach(([kind, text, more], place) => {
    const node = row.children[FIGURED[place]];
    if (node.className !== kind) node.className = kind;
    if (node.textContent !== text) node.textContent = text;
    for (const [name, value] of Object.entries(more)) {
      if (value === null) node.removeAttribute(name);
      else if (node.getAttribute(name) !== value) node.setAttribute(name, value);
    }
  });
  row.classList.toggle("speaks", figures.isSpeaking);
}
// Whether figures look as others in a row.
const dbov = ({ level }) => (level === null ? null : Math.round(level));
const areAlike = (a, b) => a.lossIn === b.lossIn && a.jitter === b.jitter && a.lossOut === b.lossOut &&
  a.trip === b.trip && a.look === b.look && dbov(a) === dbov(b);
// Shows the figures of all rows that are drawn, where they have changed.
export function drawFigures() {
  for (const { node: room } of at("board").drawn?.values() ?? []) {
    for (const [number, entry] of room.lastElementChild.drawn ?? []) {
      const member = entry.model.left ? undefined : memberOf(desk, number);
      const now = member && figuresOf(desk, stats, member);
      if (member && !areAlike(entry.figures, now)) {
        showFigures(entry.node, entry.model, now);
        entry.figures = now;
      }
    }
  }
  const text = spanInWords(stats?.span ?? null);
  if (at("span").textContent !== text) at("span").textContent = text;
}

// What a member sends. A picture can be dragged to a slot.
function sentCell({ sends: sources, left }) {
  const sent = sources.flatMap((s, place) => [place ? ", " : null,
    el("span", { class: `source${s.muted ? " muted" : ""}${fate(s).mark}`,
      title: [`${s.kind} ${labelled(s.name, s.ssrc)}`, fate(s).words].filter(Boolean).join(": "),
      draggable: s.kind === "video" && !left ? "true" : null, "data-source": s.ssrc }, s.kind)]);
  return el("span", { class: "sends soft" }, ...(sent.length ? sent : ["sends nothing"]));
}
function seenCell({ sees, left }) {
  const names = sees.flatMap((s, place) => [place ? ", " : null,
    s.source === null ? "nothing" : bdi(s.name || String(s.source))]);
  const title = sees.map((s) => (s.source === null ? s.why : s.label)).join(", ");
  return el("span", { class: "sees soft", title: left ? null : title || null },
    ...(left ? [left] : sees.length ? [el("span", { class: "spoken" }, "sees "), ...names] : []));
}

// A member's line of the overview. One that has left stays in its place as long as places are held.
export function memberRow({ model, room, figures }) {
  const { member, name, floor, muted, odd, hasAudio, isOpen, isChosen, isHere, trouble, left, isFresh } = model;
  const who = spoken(name, "member", member), words = STATES[trouble][2], off = left ? { "aria-disabled": "true" } : {};
  const short = name ? [bdi(name), soft(` ${member}`)] : [`member ${member}`];
  const looks = [odd && " odd", trouble && " trouble", trouble === "losing out" && " loses-out", isOpen && " open",
    left && " left", isFresh && " fresh", muted && " quiet", figures.isSpeaking && " speaks"];
  const [state, level, ...others] = figureCells(model, figures).map(([kind, text, more]) =>
    el("span", { class: kind, ...more, "aria-hidden": kind.startsWith("level") || kind === "spoken" ? null : "true",
      ...(kind === "level" ? { role: "meter", "aria-label": `Level of ${who}`, "aria-valuemin": LEAST_LEVEL,
        "aria-valuemax": 0 } : {}) }, text));
  return el("div", { class: `member${looks.filter(Boolean).join("")}`, role: "listitem",
    draggable: left ? null : "true", "data-member": member, "data-room-of": room, "data-key": `member ${member}` },
    state,
    el("label", { class: "pick" }, el("input", { type: "checkbox", tabindex: -1, "data-select": member, ...off,
      checked: isChosen, "aria-label": `Select ${who}` })),
    el("span", { class: "named" },
      el("button", { type: "button", class: "who", tabindex: isHere ? 0 : -1, "data-act": "open", "data-of": member,
        "data-key": `open ${member}`, "aria-expanded": String(isOpen), ...off,
        "aria-label": `Open ${name ? `${name} ${member}` : who}${words && `, ${words}`}${left ? `, ${left}` : ""}` },
        ...short),
      floor ? el("span", { class: `tag${odd ? " bad" : ""}`, title: odd ? "floor, muted" : null }, "floor") : ""),
    level, ...others, seenCell(model), sentCell(model),
    hasAudio ? does(muted ? "Unmute" : "Mute", "toggle", member, who,
      { class: `small${muted ? " danger" : ""}`, tabindex: -1, "aria-keyshortcuts": "m", ...off }) : el("span", {}));
}
