// Asking the page's program, and what comes in: the desk, its history, and what others did.
import { changedRooms, changes, memberOf, parseDesk, sourceOf } from "./lines.js";
import { gainInWords } from "./levels.js";
import { callsIn, timeOf, whoOf } from "./people.js";
import { isOlderText } from "./news.js";
import { GONE, linkInWords, linkOf, othersObjects } from "./rules.js";
import { parseHistory, worded } from "./history.js";
import { MARKED, asking, calls, desk, drag, freshAt, lastNews, me, mine, names, namesVersion, past, resting, set,
  shownText, since, timer, told, touchedAt } from "./known.js";
import { at, touched, waits } from "./view.js";
import { notice, saidOf, showWaits, sourceLabel, takeNames, tellNews } from "./page.js";
import { closeStale } from "./taking.js";
import { isFollowed } from "./stream.js";
import { render, renderHistory } from "./drawing.js";

// How often the page asks for the desk by itself, how often it tries, and how long it waits, in milliseconds.
export const EVERY = 250, PATIENCE = 8000;
const TRIES = 3;
let token = document.querySelector('meta[name="desk-token"]').content;
let isAskedAgain = false, link = "connecting";

export async function ask(path, options) {
  return fetch(path, { ...options, cache: "no-store", signal: AbortSignal.timeout(options?.method ? PATIENCE : GONE) });
}

// Asks without changing anything. A connection that has to make way for others is tried again.
export async function get(path) {
  for (let turn = 1; ; turn += 1) {
    try {
      return await ask(path);
    } catch (error) {
      if (turn === TRIES || !(error instanceof TypeError)) throw error;
      await new Promise((resolve) => { setTimeout(resolve, EVERY); });
    }
  }
}

// Posts. A call says which version of the desk its person saw. A token of an earlier run of the program is replaced,
// but nothing is sent twice.
export async function post(path, body, saw) {
  const headers = { "X-Desk-Token": token, "X-Desk-Person": me };
  if (saw !== undefined) headers["X-Desk-Seen"] = saw;
  const reply = await ask(path, { method: "POST", headers, body });
  if (reply.status === 403) await takeToken().catch(() => {});
  return reply;
}
async function takeToken() {
  const page = new DOMParser().parseFromString(await (await get("/")).text(), "text/html");
  token = page.querySelector('meta[name="desk-token"]').content;
  set.namesVersion(-1);
}
export const ANEW = "not sent: the page's program was started anew. Look, and press again.";

// Asks for the desk, and shows it where it has changed. Without a stream of events it is asked for again and again.
export async function show() {
  if (asking) {
    isAskedAgain = true;
    return;
  }
  set.asking(true);
  clearTimeout(timer);
  try {
    const reply = await get(shownText && desk.state ? `/desk.txt?after=${desk.state}` : "/desk.txt");
    const text = reply.status === 204 ? shownText : await reply.text();
    if (reply.ok) await take(text);
    else set.told(text.startsWith("Busy") ? "seats" : "bridge");
  } catch (error) {
    const isLink = error instanceof TypeError || ["TimeoutError", "AbortError"].includes(error.name);
    if (!isLink) console.error(error);
  }
  judge();
  set.asking(false);
  clearTimeout(timer);
  if (isAskedAgain) show();
  else if (!isFollowed()) set.timer(setTimeout(show, EVERY));
  isAskedAgain = false;
}

// What the page makes of its link. Where it is gone all can be read, and nothing is sent.
export const isGone = () => ["gone", "bridge", "seats"].includes(link);
export function judge() {
  const quiet = performance.now() - lastNews, is = linkOf(told, quiet);
  link = is === "live" && !desk ? "connecting" : is;
  const text = linkInWords(link, quiet, since);
  if (at("status").textContent !== text) at("status").textContent = at("status").title = text;
  at("status").className = isGone() ? "bad" : link;
  // A reader is told that the page is late, and not each second of it.
  at("status").ariaLive = link === "late" ? "off" : "polite";
  document.body.classList.toggle("gone", isGone());
}

// Texts are taken one after another, since each may have to wait for names and history.
let taking = Promise.resolve();
export function take(text) {
  taking = taking.catch(() => {}).then(() => takeText(text));
  return taking;
}
async function takeText(text) {
  set.told("");
  set.lastNews(performance.now());
  set.since(new Date().toTimeString().slice(0, 8));
  judge();
  const isNew = !shownText || (text !== shownText && !isOlderText(text, shownText));
  if (isNew && !drag) await takeDesk(text);
  if (desk && past?.version !== desk.version) await takeHistory();
}

async function takeDesk(text) {
  const next = parseDesk(text);
  const isRenamed = next.named !== namesVersion && await takeNames();
  const rows = desk ? changes(desk.rows, next.rows) : [];
  const rooms = desk && !isRenamed ? changedRooms(desk, next, rows) : null;
  // Another desk of the same version, or of an earlier one, is another bridge's.
  if (desk && (next.version < desk.version || (next.version === desk.version && rows.length > 0))) {
    set.past(null);
    set.calls(new Map());
    mine.clear();
    waits.clear();
  }
  if (desk) takeOthers(next, rows);
  set.shownText(text);
  set.desk(next);
  for (const [key, { version }] of waits) if (version && version <= desk.version) waits.delete(key);
  showWaits();
  loseSliders();
  render(rooms, rows.some((row) => /^. (room|member|source|slot) /.test(row)));
}

// Notes what others have changed, and marks the rows of these members for a while.
function takeOthers(next, rows) {
  const sent = [...waits.values()], unanswered = sent.filter(({ version }) => !version).length, now = performance.now();
  const lines = sent.map(({ line }) => line);
  const objects = othersObjects(desk.version, next.version, rows, mine, lines, unanswered);
  const marked = new Set();
  for (const object of objects) {
    touchedAt.set(object, now);
    const [kind, number] = object.split(" "), row = sourceOf(next, Number(number)) ?? sourceOf(desk, Number(number));
    if (kind === "source" && row) marked.add(row.member);
    if (["member", "gain"].includes(kind)) marked.add(Number(number));
  }
  if (marked.size === 0) return;
  for (const member of marked) freshAt.set(member, now);
  setTimeout(() => render(new Set([...marked].map((member) => memberOf(desk, member)?.room)), false), MARKED + 50);
}

// A slider that another operator has changed while it was held follows the desk, and what was held isn't sent.
function loseSliders() {
  for (const [key, one] of touched) {
    const [, member, ssrc] = key.split(" "), gain = desk.gains.get(`${member} ${ssrc}`) ?? 256;
    if (one.isLost || gain === one.from || gain === one.sent) continue;
    const node = document.querySelector(`[data-key="${CSS.escape(key)}"]`), held = node ? Number(node.value) : gain;
    clearTimeout(resting.get(key));
    one.isLost = true;
    if (node) node.value = gain;
    const whose = sourceLabel(Number(ssrc));
    notice(`Gain of ${whose} for member ${member}: another operator set ${gainInWords(gain)} while you held the `
      + `slider. Your ${gainInWords(held)} was not sent.`);
    if (!one.isDown) touched.delete(key);
  }
}

// The history and the log, as the bridge tells them. Where that fails, they are asked for with the next desk.
async function takeHistory() {
  const reply = await get("/history.txt");
  if (!reply.ok) return;
  const before = past, next = parseHistory(await reply.text(), past);
  // A log from before the history lacks its newest calls. The stream of events tells calls before the desk.
  for (let turn = 0; turn < 2 && !calls.has(next.version); turn += 1) {
    const logged = await get("/past.txt"), log = callsIn(logged.ok ? await logged.text() : "");
    set.calls(log);
    if (log.size === 0) break;
  }
  set.past(next);
  if (before) tellOthers(before);
  renderHistory();
  closeStale();
}

// Tells what others did since the history before: their calls, or what they took back or did again.
function tellOthers(before) {
  const unanswered = [...waits.values()].filter(({ version }) => !version).length;
  let count = -unanswered;
  for (let version = before.version + 1; version <= past.version; version += 1) if (!mine.has(version)) count += 1;
  if (count <= 0) return;
  const fresh = [...past.done, ...past.undone].filter(({ number }) => number > before.version && !mine.has(number));
  const more = count > 1 ? `, and ${count - 1} more` : "", last = fresh[fresh.length - 1];
  const is = past.undone.length > before.undone.length ? "undid" : "did again";
  const [taken] = (is === "undid" ? past.undone : past.done).slice(-1);
  const told = [...calls.values()].filter(({ number }) => number > before.version && !mine.has(number)).pop();
  const who = told ? `${timeOf(told.moment, Date.now())} ${whoOf(told)}` : `operator ${last?.operator}`;
  if (last) tellNews(`${who}: ${worded(names, desk, last.line, past.known)}${more}`);
  else if (taken) tellNews(`${told ? who : "another operator"} ${is}: ${saidOf(taken.number)}${more}`);
}
