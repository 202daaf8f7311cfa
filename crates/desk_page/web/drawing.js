// Drawing what stands around the rooms, and all of the page.
import { heard, memberOf, membersIn, seen, slotsOf, suggested } from "./lines.js";
import { labelled, memberLine, nameOf, sourceName } from "./overview.js";
import { levelInWords, spanInWords } from "./levels.js";
import { countInWords, countOf, figuresOf, streamInWords } from "./stats.js";
import { timeOf, whoOf } from "./people.js";
import { PLOTS, plotted } from "./plots.js";
import { inOldPlaces, isMuted, redoOf, troubleOf, undoOf } from "./rules.js";
import { wayTo, worded } from "./history.js";
import { calls, desk, here, names, opened, past, picked, set, stats, suggestions, walked, widened } from "./known.js";
import { at, callItem, chooses, detailPanel, does, el, morph, morphChildren, wayOf } from "./view.js";
import { STATES, cellsOf } from "./rows.js";
import { roomOption, saidOf } from "./page.js";
import { takes } from "./taking.js";
import { renderStrangers, traces } from "./counts.js";
import { drawHeld, infos, isHeld, renderRooms, renderSum, tellHeld, withCount } from "./places.js";

// Undo and Redo name the call that they take. Their line has the version at which that is so, or is a revert that
// leaves what programs did since.
function button(id, word, top) {
  const text = top ? `${word}: ${saidOf(top.number)}` : word, isAlone = top?.line.startsWith("revert ");
  if (at(id).textContent !== text) at(id).textContent = text;
  const how = `${text} (${top?.line}${isAlone ? ", later calls stay" : ""})`;
  at(id).title = top ? how : past ? `there is nothing to ${id}` : "";
  at(id).disabled = !top;
  at(id).onclick = () => takes(top, text, id, word);
}
// Fills a choice again, and keeps what was picked.
function options(form, field, values) {
  const select = at(form).elements[field], kept = select.value;
  const texts = values.map(([value, text]) => `${value} ${text}`).join("\n");
  if (select.dataset.texts === texts || select === document.activeElement) return;
  select.dataset.texts = texts;
  select.replaceChildren(...values.map(([value, text]) => el("option", { value }, text)));
  if (values.some(([value]) => String(value) === kept)) select.value = kept;
}

// Suggests a number in a field that no operator has changed.
function suggest(form, field, number) {
  const input = at(form).elements[field], key = `${form} ${field}`;
  if (document.activeElement === input || (input.value !== "" && input.value !== suggestions.get(key))) return;
  input.value = number;
  suggestions.set(key, String(number));
}

function renderSelected() {
  for (const member of picked) if (!memberOf(desk, member)) picked.delete(member);
  at("selected").hidden = picked.size === 0;
  if (picked.size === 0) return;
  const what = "the selected members";
  morphChildren(at("selected"), [el("strong", {}, `${picked.size} selected`),
    chooses("Move to room", what, "move-chosen"), does("Mute", "mute-chosen", "", what),
    does("Unmute", "unmute-chosen", "", what), does("Clear", "clear", "", "the selection")]);
}

// What is counted of a member, for its panel.
function countedDetail(member) {
  const figures = figuresOf(desk, stats, member), { level, isSpeaking } = figures;
  const heard = level === null ? ["\u2013", "", ""] : [levelInWords(level), "", spanInWords(stats.span)];
  const speech = isSpeaking ? `speaks${isMuted(desk, member.member) ? " while muted" : ""}` : "";
  const cells = cellsOf(figures).map(([, text, kind], at) => [["Loss in", "Jitter", "Loss out", "Trip"][at],
    text === "\u2013" ? text : `${text} ${["%", "ms"][at % 2]}`, kind.trim()]);
  const trace = traces.get(member.member) ?? [], plots = PLOTS.map((_, place) => plotted(trace, place, stats?.at ?? 0));
  return { told: [STATES[troubleOf(desk, stats, member)][2], speech].filter(Boolean).join("; ") || "nothing stands out",
    figures: [["Level", ...heard], ...cells].map(([what, text, kind, title], place) =>
      [what, text, kind, title, plots[place]]),
    mixed: stats && streamInWords(stats.streams.get(member.mix)) };
}

// What the panel of a member says.
function detailOf(member) {
  const { sends: sources, floor } = memberLine(desk, names, member), room = member.room;
  const label = (ssrc) => labelled(sourceName(names, desk, ssrc), ssrc), hears = heard(desk, member);
  const isShown = (s) => s.gain !== 256 || widened.has(`${member.member} ${s.ssrc}`);
  const counted = countedDetail(member);
  return { member: member.member, name: nameOf(names, "member", member.member), room, floor, address: member.address,
    codec: member.codec, mix: member.mix, roomLabel: `room ${labelled(nameOf(names, "room", room), room)}`,
    ...counted,
    sources: sources.map((s) => ({ ...withCount(s), isPinned: desk.pins.get(room) === s.ssrc,
      count: countInWords(countOf(stats, desk, s.ssrc)) })),
    slots: slotsOf(desk, member.member).map((slot) => {
      const { source, by: rule, why } = seen(desk, slot);
      return { slot: slot.ssrc, index: slot.index, source, by: rule, why, isSubscribed: desk.subs.has(slot.ssrc),
        label: source === null ? "" : label(source), count: stats && streamInWords(stats.streams.get(slot.ssrc)) };
    }),
    gains: hears.filter(isShown).map((s) => ({ ...s, label: label(s.ssrc) })),
    hears: hears.some((s) => !isShown(s)), others: membersIn(desk, room).length > 1 };
}
let drawnPanel = null;
export function renderDetail() {
  const member = opened === null ? undefined : memberOf(desk, opened);
  const isStill = drawnPanel?.member === opened;
  if (member) drawnPanel = isStill && isHeld("aside") ? heldDetail(drawnPanel, detailOf(member)) : detailOf(member);
  else if (isStill && isHeld("aside")) {
    drawnPanel = { ...drawnPanel, left: "has left" };
    set.heldAside(true);
  } else {
    set.opened(null);
    drawnPanel = null;
    at("detail").hidden = true;
    at("detail").replaceChildren();
    return;
  }
  morph(at("detail"), detailPanel(drawnPanel));
}
// The panel in the shape that it has.
function heldDetail(before, now) {
  const keys = { sources: "ssrc", slots: "slot" }, kept = { ...now, others: before.others, hears: before.hears };
  for (const [part, key] of Object.entries(keys)) {
    kept[part] = inOldPlaces(before[part], now[part], key);
    if (before[part].map((one) => one[key]).join() !== now[part].map((one) => one[key]).join()) set.heldAside(true);
  }
  kept.gains = before.gains.map((one) => {
    const found = heard(desk, memberOf(desk, now.member)).find((s) => s.ssrc === one.ssrc);
    return found ? { ...one, ...found, hasLeft: false } : { ...one, hasLeft: true };
  });
  const isWider = now.gains.some((one) => !before.gains.some((old) => old.ssrc === one.ssrc));
  if (isWider || now.gains.length !== before.gains.length) set.heldAside(true);
  return kept;
}

export function renderHistory() {
  button("undo", "Undo", past && undoOf(past, calls));
  button("redo", "Redo", past && redoOf(past, calls));
  const way = past && walked !== null ? wayTo(past, walked) : null, passed = way?.calls.map((one) => one.number) ?? [];
  const item = (one, isUndone) => {
    const isWalked = one.number === walked && way !== null, canRevert = isWalked && !isUndone && passed.length > 0;
    return { key: one.number, model: { number: one.number, ...whenAndWho(one), isUndone, isWalked,
      text: worded(names, desk, one.line, past.known), isOnWay: passed.includes(one.number),
      way: isWalked ? wayOf(way) : null, revert: canRevert ? saidOf(one.number) : null } };
  };
  const undone = (past?.undone ?? []).map((one) => item(one, true));
  at("no-calls").hidden = !past || past.done.length + past.undone.length > 0;
  const row = document.activeElement?.closest("#calls li"), others = row ? besides([...at("calls").children], row) : [];
  drawHeld(at("calls"), [...undone, ...(past?.done ?? []).map((one) => item(one, false)).reverse()], callItem);
  // Where a call goes, as a revert takes it, the focus goes to the one after it, or else before it.
  if (row && !row.isConnected) others.find((one) => one.isConnected)?.querySelector("button").focus();
}
// When a call of the history was given, and by whom.
function whenAndWho({ number, operator }) {
  const one = calls.get(number);
  return { when: one ? `${timeOf(one.moment, Date.now())} ` : "", who: whoOf(one ?? { operator }) };
}
// The rows after a row of a list, and then those before it, from the nearest one on.
function besides(rows, row) {
  const place = rows.indexOf(row);
  return [...rows.slice(place + 1), ...rows.slice(0, place).reverse()];
}
function renderForms() {
  const rooms = desk.rooms.map(roomOption);
  const people = desk.members.map(({ member }) => [member, labelled(nameOf(names, "member", member), member)]);
  options("add-person", "room", rooms);
  options("add-member", "room", rooms);
  options("add-source", "member", people);
  options("add-slot", "member", people);
  for (const [id, field, number] of suggested(desk)) suggest(id, field, number);
}

// Draws what may have changed: some rooms, or all where none are given, and the forms unless their choices are as
// before. What is asked for by the operator changes places at once.
export function render(changed = null, hasForms = true, isAsked = false) {
  if (!desk) return;
  const focused = document.activeElement, key = focused?.dataset?.key, heirs = heirsOf(focused);
  set.heldAside(false);
  if (changed) for (const room of changed) infos.delete(room);
  else infos.clear();
  renderSum();
  renderRooms(changed, isAsked);
  renderSelected();
  renderDetail();
  renderStrangers();
  renderHistory();
  tellHeld();
  if (!changed || hasForms) renderForms();
  const title = `Desk, version ${desk.version}`;
  if (document.title !== title) document.title = title;
  if (!key || document.activeElement?.dataset?.key === key) return;
  const next = [key, ...heirs].map((one) => document.querySelector(`[data-key="${CSS.escape(one)}"]`)).find(Boolean);
  next?.focus({ preventScroll: true });
}
// Where the focus goes if its row goes: to the row after it, or else before it.
function heirsOf(node) {
  const row = node?.closest?.("#board .member");
  if (!row) return node?.closest?.("#board, #detail") ? ["open " + [...here.values()].pop()] : [];
  const others = besides([...document.querySelectorAll("#board .member")], row).slice(0, 64);
  return others.map((one) => `open ${one.dataset.member}`);
}
