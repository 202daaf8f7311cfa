// What goes out: calls, names and questions; and what clicks do.
import { heard, lines, memberOf, membersIn, nameRefusal, replyInWords, roomsFor, videosFor,
  withField } from "./lines.js";
import { LONGEST_NAME, MOST_PARTS, goesAlong, grouped, labelled, movedAll, nameOf, othersMuted, parseNames, renamed,
  sourceName, toggled, voicesOf } from "./overview.js";
import { groupsIn, keptText } from "./kept.js";
import { newerIn } from "./people.js";
import { JUST, objectsOfLine } from "./rules.js";
import { begun, callInTheWay, callWords, wayTo } from "./history.js";
import { desk, filter, folded, group, here, mine, names, namesVersion, opened, past, picked, pressed, set, touchedAt,
  walked, widened } from "./known.js";
import { at, code, el, spoken, waits } from "./view.js";
import { goes, sendsAfter, takes } from "./taking.js";
import { ANEW, PATIENCE, get, isGone, post, show } from "./link.js";
import { isFollowed } from "./stream.js";
import { fillSource } from "./counts.js";
import { lastFit } from "./places.js";
import { render, renderHistory } from "./drawing.js";

// After so many milliseconds without an answer that is said, and a success fades.
const SLOW = 1000, FADES = 5000;
let fading = null, newsFading = null;

// What became of the last press. A success fades, a refusal stays until it is closed. Where a call of the history is
// why, a button leads to it.
export function notice(text, good, why = null) {
  at("notice").textContent = at("notice").title = text;
  at("notice").className = good ? "good" : "";
  at("notice").hidden = at("close-notice").hidden = false;
  at("show-call").hidden = !past?.done.some(({ number }) => number === why);
  at("show-call").dataset.of = why;
  at("show-call").textContent = `Show call ${why}`;
  clearTimeout(fading);
  if (good) fading = setTimeout(closeNotice, FADES);
}
export function closeNotice() { at("notice").hidden = at("close-notice").hidden = at("show-call").hidden = true; }

// What others did.
export function tellNews(text) {
  at("news").textContent = at("news").title = text;
  clearTimeout(newsFading);
  newsFading = setTimeout(() => { at("news").textContent = at("news").title = ""; }, 2 * FADES);
}

// Why a line isn't sent just now, in words, or nothing.
export function whyNot(line, key) {
  if (isGone()) return `${at("status").textContent} Nothing is sent until it is back.`;
  if (key && waits.has(key)) return "The press before has no answer yet.";
  const just = performance.now() - JUST, object = objectsOfLine(line).find((one) => touchedAt.get(one) > just);
  return object ? "Another operator changed that just now. Look, and press again." : "";
}

// A control waits until its answer came, and the desk of that version.
function waitsFor(key, line) {
  waits.set(key, { line, version: 0 });
  showWaits();
}
function answered(key, version) {
  if (version > (desk?.version ?? version) && waits.has(key)) waits.get(key).version = version;
  else waits.delete(key);
  showWaits();
}
export function showWaits() {
  for (const node of document.querySelectorAll("[data-key][aria-busy]")) {
    if (!waits.has(node.dataset.key)) node.removeAttribute("aria-busy");
  }
  for (const key of waits.keys()) {
    const nodes = document.querySelectorAll(`[data-key="${CSS.escape(key)}"]`);
    for (const node of nodes) node.setAttribute("aria-busy", "true");
  }
}

// Sends a line once, unless there is a reason not to, which is told. The version as which it is accepted, or 0.
// Whatever comes of it, the desk is shown again; the line is never sent again by itself. `saw` is the version of the
// desk that the person saw.
export async function call(line, words = line, key = pressed, saw = desk?.version) {
  const why = whyNot(line, key);
  if (why) {
    notice(`${words}: not sent. ${why}`);
    return 0;
  }
  if (at("collect").checked && !/^(undo|redo|revert|group) /.test(line)) return collect(line);
  const control = key ?? `line ${line} ${performance.now()}`;
  waitsFor(control, line);
  const slow = setTimeout(() => notice(`${words}: sent, no answer yet.`), SLOW);
  const { version, other } = await sent(line, words, saw);
  clearTimeout(slow);
  answered(control, version);
  if (!isFollowed()) show();
  return other && !at("ask").open ? sendsAfter(other, line, words, key) : version;
}
// The version as which a line is accepted, or 0; and another person's call that came first, if one did.
async function sent(line, words, saw) {
  try {
    const reply = await post("/call", line, saw), seen = { names, desk, past };
    const said = (await reply.text()).trim(), { good, text } = replyInWords(reply.status, said, seen);
    const version = good ? Number(said.split(" ")[1]) : 0;
    if (version) mine.add(version);
    notice(said.startsWith("NoToken") ? `${words}: ${ANEW}` : `${words}: ${text}`, good, callInTheWay(said));
    return { version, other: newerIn(said) };
  } catch {
    notice(`${words}: no answer came. It may have been done: look at the desk before you press again.`);
    return { version: 0, other: null };
  }
}

// Hands the desk to the browser as a file.
function save() {
  const href = URL.createObjectURL(new Blob([keptText(desk)], { type: "text/plain" }));
  el("a", { href, download: "desk.txt" }).click();
  setTimeout(() => URL.revokeObjectURL(href), PATIENCE);
  notice(`The desk is saved. ${RESTORED}`, true);
}

// Makes a desk again from such a file: all of it or nothing.
const RESTORED = "Where it is restored streams begin anew, with FIRST_SEQ 1,000 further on.";
export async function restore(text) {
  const groups = groupsIn(text), what = "Restore";
  if (!groups) return notice(`${what}: that is no saved desk, or part of it is missing. Nothing was sent.`);
  if (desk.rows.length > 0) return notice(`${what}: the desk has rooms. Remove them first. Nothing was sent.`);
  const versions = [];
  for (const line of groups) {
    const version = await call(line, `${what}, group ${versions.length + 1} of ${groups.length}`);
    if (!version) return takesBack(versions);
    versions.push(version);
  }
  return notice(`${what}: ${groups.length} groups were accepted. ${RESTORED}`, true);
}
async function takesBack(versions) {
  const why = at("notice").textContent;
  let version = versions[versions.length - 1] ?? null;
  for (let left = versions.length; left > 0 && version; left -= 1) version = await call(`undo ${version}`);
  notice(version === 0 ? `${why} What was restored before stays.` : `${why} Nothing stays.`);
}

// Sends commands as one call.
export function callAll(parts, what) {
  const count = parts.length;
  if (count > MOST_PARTS) return notice(`${what}: that takes ${count} commands. A group has ${MOST_PARTS} at most.`);
  if (count > 0) return call(grouped(parts), count > 1 ? `${what} (${count} commands as one)` : parts[0]);
  return notice(`${what}: nothing to do.`);
}

function collect(line) { group.push(line); showGroup(); return 0; }

export function showGroup() {
  at("collected").replaceChildren(...group.map((line) => el("li", {}, code(line))));
  at("collected").hidden = at("group-buttons").hidden = group.length === 0;
}

// Names, as the page's program keeps them.
export async function takeNames() {
  const reply = await get("/names");
  document.body.classList.toggle("nameless", reply.status === 404);
  if (!reply.ok) return false;
  const told = parseNames(await reply.text());
  set.names(told.names);
  set.namesVersion(told.version);
  return true;
}

// Names a thing for all. Where another browser has named something meanwhile, its names are taken first.
export async function rename(kind, number, name) {
  const what = `the name of ${kind} ${number}`;
  for (let turn = 0; turn < 8; turn += 1) {
    const body = `names ${namesVersion}\n${JSON.stringify(renamed(names, kind, number, name))}`;
    try {
      const reply = await post("/names", body);
      const said = (await reply.text()).trim();
      if (said.startsWith("ok ")) {
        notice(`${what}: kept`, true);
        await takeNames();
        return render();
      }
      if (said.startsWith("NoToken")) return notice(`${what}: ${ANEW}`);
      if (!/^no [0-9]+ Newer/.test(said)) return notice(`${what}: ${nameRefusal(reply.status, said)}`);
      await takeNames();
    } catch {
      return notice(`${what}: no answer came.`);
    }
  }
  return notice(`${what}: others name things all the time; try again.`);
}

// Asks a question, with a field for a text where one is given. The text, or null.
export function question(title, text, yes, value = null) {
  at("ask-title").textContent = title;
  at("ask-text").textContent = text;
  at("ask-yes").textContent = yes;
  at("ask-label").hidden = value === null;
  at("ask-input").value = value ?? "";
  at("ask").returnValue = "";
  at("ask").showModal();
  if (value === null) at("ask-no").focus();
  return new Promise((resolve) => {
    at("ask").onclose = () => resolve(at("ask").returnValue === "yes" ? at("ask-input").value : null);
  });
}

// A call of the history as something that is taken back or done again.
export const saidOf = (number) => callWords(names, desk, number, past?.known ?? new Map());
// Unfolds a call of the history, and goes there.
function showCall(number) {
  set.walked(number);
  renderHistory();
  const node = at("calls").querySelector(`[data-key="walk ${number}"]`);
  node?.scrollIntoView({ block: "nearest" });
  node?.focus();
}

const pickedVoices = (muted) => voicesOf(desk, [...picked], muted);
export const sourceLabel = (ssrc) => labelled(sourceName(names, desk, ssrc), ssrc);

// What clicks do, by their `data-act`. The page asks before a room goes that has more members than these few.
const FEW_MEMBERS = 4;
export const acts = {
  open: (of) => {
    set.opened(opened === Number(of) ? null : Number(of));
    setHere(Number(of));
    render();
  },
  close: () => { set.opened(null); render(); },
  "take-stranger": (of) => fillSource(Number(of)),
  walk: (of) => { set.walked(walked === Number(of) ? null : Number(of)); renderHistory(); },
  "show-call": (of) => showCall(Number(of)),
  go: (of) => { const way = past && wayTo(past, Number(of)); if (way) goes(way); },
  fold: (of) => { folded.set(Number(of), !isFolded(Number(of))); render(null, true, true); },
  filter: (of) => { set.filter(filter === of ? "" : of); lastFit.clear(); render(null, true, true); },
  unknown: () => {
    at("unknown").scrollIntoView({ block: "nearest" });
    at("strangers").querySelector("button")?.focus();
  },
  toggle: (of) => callAll(toggled(desk, [Number(of)]), `mute of member ${of}`),
  "mute-others": (of) => callAll(othersMuted(desk, Number(of)), `mute all but member ${of}`),
  "mute-chosen": () => callAll(pickedVoices(false).map((s) => lines.mute(s.ssrc)), "mute the selected members"),
  "unmute-chosen": () => callAll(pickedVoices(true).map((s) => lines.unmute(s.ssrc)), "unmute the selected members"),
  clear: () => { picked.clear(); render(); },
  revert: (of) => {
    const number = Number(of), line = lines.revert(number);
    takes({ number, line }, `Revert: ${begun(saidOf(number))}`, line, "Revert");
  },
  save,
  restore: () => at("file").click(),
  name: async (of) => {
    const [kind, number] = of.split(" ");
    const text = `All browsers show it. It has ${LONGEST_NAME} characters at most; an empty name takes it away.`;
    const name = await question(`Name ${of}`, text, "Keep", nameOf(names, kind, number));
    if (name !== null) rename(kind, Number(number), name);
  },
  "remove-room": async (of) => {
    const room = Number(of), saw = desk.version;
    if (membersIn(desk, room).length > FEW_MEMBERS && !at("collect").checked) {
      const text = `${goesAlong(desk, room)} go along. Undo brings all of it back, and Revert in the history later on.`;
      const what = spoken(nameOf(names, "room", room), "room", room);
      if (await question(`Remove ${what}?`, text, "Remove") === null) return;
    }
    call(lines.removeRoom(room), undefined, undefined, saw);
  },
};

const slotOf = (ssrc) => withField(desk.slots, "ssrc", ssrc)[0];
const evenlyHeard = (member) => heard(desk, memberOf(desk, member)).filter((s) => s.gain === 256);

// What a choice offers, and what is done with what is picked.
export const choices = {
  subscribe: { options: (slot) => videosFor(desk, slotOf(slot)).map((ssrc) => [ssrc, sourceLabel(ssrc)]),
    choose: (slot, ssrc) => call(lines.subscribe(slot, ssrc)) },
  "move-member": { options: (member) => roomsFor(desk, memberOf(desk, member)).map(roomOption),
    choose: (member, room) => call(lines.moveMember(member, room)) },
  "gain-of": { options: (member) => evenlyHeard(member).map((s) => [s.ssrc, sourceLabel(s.ssrc)]),
    choose: (member, ssrc) => { widened.add(`${member} ${ssrc}`); render(); } },
  "move-chosen": { options: () => desk.rooms.map(roomOption),
    choose: (_, room) => callAll(movedAll(desk, [...picked], room), `move the selected members to room ${room}`) },
};
export const roomOption = (room) => [room, labelled(nameOf(names, "room", room), room)];
export function offer(select) {
  if (select.options.length > 1) return;
  const [kind, of] = select.dataset.choice.split(" ");
  select.append(...choices[kind].options(Number(of)).map(([value, text]) => el("option", { value }, text)));
}

// Where there are more rooms than these few, a room is folded until it is unfolded.
const FEW_ROOMS = 8;
export const isFolded = (room) => folded.get(room) ?? desk.rooms.length > FEW_ROOMS;
export function setHere(member) {
  const row = memberOf(desk, member);
  if (row) here.set(row.room, member);
}
