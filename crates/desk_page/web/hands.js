// What clicks, keys and drags do.
import { codecOf, dropped, lines } from "./lines.js";
import { cut, movedAll } from "./overview.js";
import { gainInWords } from "./levels.js";
import { newcomer } from "./stats.js";
import { personWord } from "./people.js";
import { JUST } from "./rules.js";
import { desk, drag, folded, group, movedAt, opened, past, picked, resting, set, stats, suggestions } from "./known.js";
import { at, touched } from "./view.js";
import { acts, call, callAll, choices, closeNotice, isFolded, notice, offer, rename, restore, setHere,
  showGroup } from "./page.js";
import { EVERY, judge, show } from "./link.js";
import { isFollowed, openStream, watchStream } from "./stream.js";
import { count } from "./counts.js";
import { render, renderDetail, renderHistory } from "./drawing.js";

// How often the link is judged, and how long a slider rests before its line is sent, in milliseconds.
const JUDGED_EVERY = 500, REST = 400;

// Clicks and choices.
document.addEventListener("click", (event) => {
  const node = event.target.closest("[data-line],[data-act],[data-select]");
  if (!node || !desk) return;
  if (node.getAttribute("aria-disabled") === "true") {
    event.preventDefault();
    notice("Not done: that has left. Its row goes once the pointer has left the list.");
  } else if (event.detail > 0 && performance.now() - movedAt < JUST && node.closest("#board")) {
    event.preventDefault();
    notice("Not done: the list has just moved. Look, and press again.");
  } else if (node.dataset.select) {
    picked[node.checked ? "add" : "delete"](Number(node.dataset.select));
    render();
  } else presses(node.dataset.key, () => {
    if (node.dataset.act) acts[node.dataset.act](node.dataset.of);
    else call(node.dataset.line, node.dataset.words);
  });
});
// Does what a control is for. What it sends has its answer shown at the control.
function presses(key, act) {
  set.pressed(key);
  act();
  set.pressed(null);
}
const tells = ({ target }) => {
  const line = target.closest?.("[data-line]")?.dataset.line;
  if (line && document.activeElement !== at("line")) at("line").placeholder = line;
};
document.addEventListener("pointerover", tells);
document.addEventListener("focusin", (event) => {
  tells(event);
  if (event.target.matches("select[data-choice]")) offer(event.target);
});
document.addEventListener("pointerdown", ({ target }) => { if (target.matches("select[data-choice]")) offer(target); });
document.addEventListener("focusout", ({ target }) => {
  if (target.matches("select[data-choice]")) for (const option of [...target.options].slice(1)) option.remove();
});
document.addEventListener("change", ({ target }) => {
  if (!target.matches("select[data-choice]") || target.value === "") return;
  const [kind, of] = target.dataset.choice.split(" "), value = Number(target.value);
  target.value = "";
  presses(target.dataset.key, () => choices[kind].choose(Number(of), value));
});

// A slider sends one line, once it has rested. It is the operator's while it is held, and for so long after a key.
function holdsSlider({ dataset: { key } }, isDown) {
  const [, member, ssrc] = key.split(" "), from = desk.gains.get(`${member} ${ssrc}`) ?? 256;
  if (!touched.has(key)) touched.set(key, { from, sent: null, isLost: false, isDown });
  return touched.get(key);
}
function endsSlider(key) {
  const one = touched.get(key);
  if (!one || one.isDown) return;
  touched.delete(key);
  renderDetail();
}
document.addEventListener("pointerdown", ({ target }) => {
  if (target.dataset?.gain && desk) holdsSlider(target, true).isDown = true;
});
for (const type of ["pointerup", "pointercancel"]) {
  document.addEventListener(type, () => {
    for (const [key, one] of touched) {
      one.isDown = false;
      if (one.isLost || !resting.has(key)) endsSlider(key);
    }
  });
}
document.addEventListener("input", ({ target }) => {
  if (!target.dataset.gain || !desk) return;
  const { key, gain } = target.dataset, one = holdsSlider(target, false);
  clearTimeout(resting.get(key));
  if (one.isLost) {
    const [, member, ssrc] = key.split(" ");
    target.value = desk.gains.get(`${member} ${ssrc}`) ?? 256;
    resting.delete(key);
    return;
  }
  target.ariaValueText = gainInWords(target.value);
  target.parentNode.querySelector(".soft").textContent = ` ${target.ariaValueText}`;
  resting.set(key, setTimeout(async () => {
    resting.delete(key);
    one.sent = Number(target.value);
    await call(`${gain}${one.sent}`, `${gain}${one.sent}`, null);
    if (!one.isLost) one.from = one.sent;
    if (!resting.has(key)) endsSlider(key);
  }, REST));
});

// Members can be dragged to rooms, and video sources to slots. No drag begins at a field of a line.
document.addEventListener("pointerdown", ({ target }) => {
  const row = target.closest(".member");
  if (row) row.draggable = !target.closest("input,select") && !row.classList.contains("left");
});
document.addEventListener("dragstart", (event) => {
  const source = event.target.closest?.(".source"), row = event.target.closest?.(".member");
  if (source) set.drag({ source: Number(source.dataset.source) });
  else if (row) set.drag({ member: Number(row.dataset.member) });
  else return;
  event.dataTransfer.setData("text/plain", "");
});
const dropAt = (event) => {
  const node = event.target.closest?.("[data-slot],[data-room]");
  const on = !node ? {} : node.dataset.slot ? { slot: Number(node.dataset.slot) } : { room: Number(node.dataset.room) };
  return { node, line: node && drag && desk ? dropped(desk, drag, on) : null };
};
const unmark = () => document.querySelectorAll(".over").forEach((one) => one.classList.remove("over"));
document.addEventListener("dragover", (event) => {
  const { node, line } = dropAt(event);
  unmark();
  if (!line) return;
  event.preventDefault();
  node.classList.add("over");
});
document.addEventListener("drop", (event) => {
  const { line } = dropAt(event);
  unmark();
  if (!line) return;
  event.preventDefault();
  const isMany = drag.member !== undefined && picked.has(drag.member) && picked.size > 1;
  set.drag(null);
  if (isMany) callAll(movedAll(desk, [...picked], Number(line.split(" ")[2])), "move the selected members");
  else call(line);
});
document.addEventListener("dragend", () => {
  unmark();
  set.drag(null);
  set.shownText(null);
  if (isFollowed()) show();
});

// Keys.
const isText = (node) => node.matches("input:not([type=checkbox]):not([type=range]),select,textarea");
function memberAt(node) { return Number(node.closest("[data-member]")?.dataset.member ?? opened ?? NaN); }
function step(node, by) {
  const rows = [...document.querySelectorAll("#board .who")], next = rows[rows.indexOf(node) + by];
  if (!next) return;
  setHere(Number(next.dataset.of));
  render();
  next.focus();
}
// The next row in trouble, round the list.
function nextInTrouble() {
  const rows = [...document.querySelectorAll("#board .who")], at = rows.indexOf(document.activeElement);
  const next = [...rows.slice(at + 1), ...rows.slice(0, at + 1)].find((node) => node.closest(".trouble"));
  if (!next) return notice("Nobody who is drawn here is in trouble.", true);
  setHere(Number(next.dataset.of));
  render();
  next.focus();
  return next.scrollIntoView({ block: "nearest" });
}
const keys = {
  "/": () => { at("search").focus(); at("search").select(); },
  m: (node) => { const of = memberAt(node); if (!Number.isNaN(of)) presses(`toggle ${of}`, () => acts.toggle(of)); },
  n: () => nextInTrouble(),
  ArrowDown: (node) => node.matches(".who") && step(node, 1),
  ArrowUp: (node) => node.matches(".who") && step(node, -1),
  " ": (node) => node.matches(".who") && node.closest(".member").querySelector("input").click(),
};
document.addEventListener("keydown", (event) => {
  const node = event.target;
  if (at("ask").open || !desk) return;
  if (node === at("search") && event.key === "Escape") { node.value = ""; render(null, true, true); }
  if (isText(node)) return;
  if ((event.ctrlKey || event.metaKey) && event.key.toLowerCase() === "z") {
    event.preventDefault();
    at(event.shiftKey ? "redo" : "undo").click();
  } else if (!event.ctrlKey && !event.metaKey && !event.altKey && keys[event.key]) {
    if (keys[event.key](node) !== false) event.preventDefault();
  }
});

function form(id, lineOf) {
  at(id).addEventListener("submit", (event) => {
    event.preventDefault();
    // What was sent is no longer what somebody types.
    for (const key of suggestions.keys()) {
      const [of, field] = key.split(" ");
      if (of === id) suggestions.set(key, at(id).elements[field].value);
    }
    call(lineOf(Object.fromEntries(new FormData(at(id)))));
  });
}
form("add-room", (f) => lines.addRoom(f.room, f.rate));
form("add-member", (f) => lines.addMember(f, codecOf(desk, f)));
form("add-source", lines.addSource);
form("add-slot", lines.addSlot);
// Somebody comes by one group, and then has a name. What comes from its address later is added from the unknown
// senders.
at("add-person").addEventListener("submit", async (event) => {
  event.preventDefault();
  const fields = at("add-person").elements, name = cut(fields.name.value), sees = fields.sees.checked;
  const { member, parts } = newcomer(desk, stats, { room: fields.room.value, address: fields.address.value, sees });
  if (!await callAll(parts, `add ${name || `member ${member}`}`)) return;
  fields.name.value = fields.address.value = "";
  if (name) await rename("member", member, name);
});
at("line-form").addEventListener("submit", (event) => {
  event.preventDefault();
  call(at("line").value.trim());
  at("line").value = "";
});
at("file").addEventListener("change", async ({ target }) => {
  const [file] = target.files;
  if (file) await restore(await file.text());
  target.value = "";
});
// Who is at the page, as the browser keeps it.
function takePerson(name) {
  set.me(personWord(name));
  if (past) renderHistory();
}
// A browser may refuse to keep anything.
try { at("person").value = localStorage.getItem("person") ?? ""; } catch (error) { console.warn(error); }
takePerson(at("person").value);
at("person").addEventListener("change", ({ target }) => {
  target.value = cut(target.value);
  takePerson(target.value);
  try { localStorage.setItem("person", target.value); } catch (error) { console.warn(error); }
});
at("search").addEventListener("input", () => render(null, true, true));
at("sort").addEventListener("change", () => render(null, true, true));
at("close-notice").addEventListener("click", closeNotice);
at("fold").addEventListener("click", () => {
  const are = desk?.rooms.every(isFolded);
  for (const room of desk?.rooms ?? []) folded.set(room, !are);
  render(null, true, true);
});
const dropGroup = () => { set.group([]); showGroup(); };
at("drop-group").addEventListener("click", dropGroup);
at("send-group").addEventListener("click", () => {
  const line = lines.group(group);
  at("collect").checked = false;
  dropGroup();
  call(line);
});
setInterval(judge, JUDGED_EVERY);
setInterval(watchStream, JUDGED_EVERY);
setInterval(count, EVERY);
document.addEventListener("visibilitychange", count);
show();
openStream();
