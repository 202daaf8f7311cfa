// What the bridge counts: asking for it, and the senders that are no source.
import { parseStats, strangersIn, turnedRooms } from "./stats.js";
import { tracedAll } from "./plots.js";
import { desk, filter, set, stats } from "./known.js";
import { at, strangerItem } from "./view.js";
import { drawFigures } from "./rows.js";
import { ask } from "./link.js";
import { drawHeld, isHeld } from "./places.js";
import { render } from "./drawing.js";

// How long after a count the next one is asked for, in milliseconds. An answer for many sources is long.
const OFTEN = 1000, SELDOM = 2000, MANY_SOURCES = 256;
let counted = -Infinity, counting = false;
// The figures of two minutes, by member.
export let traces = new Map();
const countedEvery = () => (stats && stats.sources.size > MANY_SOURCES ? SELDOM : OFTEN);
// Asks what the bridge counts, while somebody can see the page. Where the bridge doesn't know the question, the status
// is no success, and nothing is shown of it.
export async function count() {
  if (counting || document.visibilityState !== "visible" || performance.now() - counted < countedEvery()) return;
  counting = true;
  counted = performance.now();
  try {
    const reply = await ask("/stats");
    takeStats(reply.ok ? parseStats(await reply.text(), stats, performance.now()) : null);
  } catch (error) {
    // What was counted last stays where no answer came.
    if (error instanceof SyntaxError) console.error(error);
  }
  counting = false;
}
function takeStats(next) {
  const before = stats;
  set.stats(next);
  traces = next && desk ? tracedAll(traces, desk, next) : new Map();
  if (!desk) return;
  if (!before) set.orderedAt(-Infinity);
  const turned = before || next ? turnedRooms(desk, before, next) : new Set();
  // Rooms with trouble rise, and who ceases to fit a filter goes, even where nothing has turned since the count before.
  render(filter ? null : turned, false);
  drawFigures();
}

// The senders that are no source, where the bridge tells of any.
export function renderStrangers() {
  const items = strangersIn(stats, desk).map((model) => ({ key: `${model.address} ${model.ssrc}`, model }));
  if (!isHeld("aside")) at("unknown").hidden = items.length === 0;
  drawHeld(at("strangers"), items, strangerItem);
}

// Fills in the form that adds a source. Which member it is of is the operator's choice.
export function fillSource(ssrc) {
  const found = strangersIn(stats, desk).find((one) => one.ssrc === ssrc);
  if (!found) return;
  const { member, kind } = found, fields = at("add-source").elements;
  fields.ssrc.value = ssrc;
  fields.kind.value = kind;
  if (member !== null) fields.member.value = member;
  fields.member.focus();
}
