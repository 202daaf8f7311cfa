"use strict";
const at = id => document.getElementById(id);
const asked = new URLSearchParams(location.search);
// `?plain` leaves the sound as the microphone gives it: for music, and for tones of a test.
const plain = asked.has("plain");
// The invitation that a link has: the gateway may want one.
const invitation = asked.has("sign") && {
  ...Object.fromEntries(["room", "name", "role", "sign"].map(key => [key, asked.get(key) || ""])),
  until: Number(asked.get("until")),
};
// The call: its id at the gateway (`base`), what that said of the member, the connection, and the own devices.
let call = null;
// In ms: between two tries of a page to come again, and between two at others where its bridge is cut off.
// And after how many questions that nobody has answered it asks the others.
const TRY = 1000, CUT = 10000, SILENT = 4;
// For how many ms a gateway may take to answer, as nothing says so where a network is lost; and for how many a note stands.
const LOOKS = 4000, ASKS = 15000, NOTES = 6000;
// What is said while the page comes back by itself.
const SHORT = text => text.replace(/ (Press Join|Join it|Join again|Try again).*/, "");

function say(text, wrong = false) {
  at("state").textContent = text;
  at("state").classList.toggle("wrong", wrong);
}

// Says something beside how the call stands, for some seconds.
function tell(text) {
  if (call) Object.assign(call, { note: text, noted: Date.now() });
  say(text, true);
}

async function ask(base, path, words) {
  const signal = AbortSignal.timeout(path === "offer" || path === "answer" ? ASKS : LOOKS);
  const isGone = () => { throw new Error("The gateway doesn't answer."); };
  const said = await fetch(base + path, { method: "POST", body: JSON.stringify(words), signal }).catch(isGone);
  if (said.ok) return said.json().catch(isGone);
  const text = await said.text().catch(isGone);
  const isTold = said.headers.get("Content-Type").startsWith("application/json");
  const { words: why, again, page } = isTold ? JSON.parse(text) : { words: text };
  throw Object.assign(new Error(why), { status: said.status, again, page });
}

async function join() {
  at("join").disabled = at("name").disabled = at("room").disabled = true;
  say("Joining ..");
  const mine = call = { base: "", pages: [], room: at("room").value, name: at("name").value, silent: 0, people: [] };
  try {
    endTry();
    mine.own = await devices();
    mine.own.getTracks().forEach(track => watchTrack(mine, track));
    await connect(mine, mine.base);
    if (call !== mine) return;
    at("own").querySelector("video").srcObject = mine.own;
    at("own").hidden = !mine.own.getVideoTracks().length;
    at("leave").disabled = false;
    at("microphone").disabled = !mine.own.getAudioTracks().length;
    at("camera").disabled = !mine.own.getVideoTracks().length;
    label();
    measure(mine);
    mine.timers = [setInterval(look, 1000), setInterval(draw, 200), setInterval(() => lookAtLosses(mine), LOSES)];
    look();
  } catch (why) {
    if (call === mine) leave(why.message, true);
  }
}

// Becomes a member by an offer of the gateway at `base`, or the member again that it was by `again`. The connection
// before it lasts until then.
async function connect(mine, base, again) {
  const { room, name } = mine, was = { id: mine.id, base: mine.base };
  const words = again ? { again } : invitation ? { invitation } : {};
  const { id, sdp, ice } = await ask(base, "offer", { room, name, ...words });
  mine.ice = ice;
  const before = mine.peer, peer = connected(mine);
  if (!before) Object.assign(mine, { id, base, peer });
  try {
    clear();
    await peer.setRemoteDescription({ type: "offer", sdp });
    // The tracks take the sections that the offer has for them.
    for (const track of mine.own.getTracks()) peer.addTrack(track, mine.own);
    keepPlace(peer);
    const told = await ask(base, "answer", { id, sdp: await gathered(peer) });
    if (call !== mine) throw new Error("It has been left.");
    Object.assign(mine, { id, base, peer, told, pages: told.pages });
    if (before) before.close();
    if (was.id) ask(was.base, "leave", { id: was.id }).catch(() => {});
    if (mine.screen) showScreen(mine);
  } catch (why) {
    peer.close();
    ask(base, "leave", { id }).catch(() => {});
    throw why;
  }
}

// Comes again as the same member, without a click: at this gateway, or at the one where the room is now.
async function comeAgain(mine, why, time = mine.told.away * 1000) {
  mine.isComing = true;
  let page = why.page, last = why;
  const end = Date.now() + time;
  for (let isTime = true; isTime && call === mine; isTime = Date.now() < end) {
    say(`${SHORT(last.message)} Coming back ..`, true);
    const asked = page;
    for (const base of new Set([page ? page + "/" : mine.base, mine.base, ...mine.pages.map(one => one + "/")])) {
      try {
        await connect(mine, base, mine.told.again);
        Object.assign(mine, { isComing: false, silent: 0 });
        look();
        return;
      } catch (wrong) {
        if (call !== mine) return;
        if (wrong.status === 410) { leave(wrong.message, true); return; }
        last = wrong;
        if (wrong.page) { page = wrong.page; break; }
      }
    }
    if (page === asked) await pause(TRY);
  }
  if (call !== mine) return;
  // Where nobody answers, the call itself may go on.
  if (why.again) leave(last.message, true);
  Object.assign(mine, { isComing: false, silent: 0 });
  if (call === mine && mine.hadWay && mine.peer.connectionState !== "connected") mend(mine);
}

// Asks the agent how things stand.
async function look() {
  const mine = call;
  if (mine.isComing || mine.isLooking) return;
  mine.isLooking = true;
  const { loses } = mine, words = loses ? { id: mine.id, loses } : { id: mine.id };
  const state = await ask(mine.base, "state", words).catch(why => why);
  mine.isLooking = false;
  if (call !== mine || mine.isComing) return;
  if (state instanceof Error) {
    if (state.status === 410 && !state.again) { leave(state.message, true); return; }
    mine.silent = state.status ? 0 : mine.silent + 1;
    say(state.message, true);
    if (state.again || mine.silent >= SILENT && mine.pages.length) comeAgain(mine, state);
    return;
  }
  const { names, pages, people, speech, view, ice } = state;
  Object.assign(mine, { names, silent: 0, pages, room: state.room ?? mine.room, people, speech, view, ice });
  mine.told.again = state.again;
  if (loses) mine.loses = false;
  if (view && !mine.loses) takeSmall(mine, view.small);
  if (state.cut && mine.pages.length && Date.now() > (mine.next || 0)) {
    mine.next = Date.now() + CUT;
    comeAgain(mine, new Error(state.trouble), 0);
    return;
  }
  const { member, voice, camera } = mine.told;
  const isIn = state.room !== null;
  const parts = ["An operator has taken you out of the call."];
  if (isIn) parts[0] = `You are member ${member} in room ${state.room}.`;
  if (voice === null) parts.push("You only listen: there is no microphone that this page may use.");
  const me = people.find(one => one.member === member) || {};
  if (me.muted === "operator") parts.push("An operator has muted your voice.", me.speaks ? "Nobody hears you." : "");
  if (me.muted === "itself") parts.push("You have muted yourself.");
  if (state.muted.includes(camera)) parts.push("An operator has stopped your picture.");
  parts.push(isIn ? lookAtScreen(mine, me, state.muted) : "");
  if (mine.isMending) parts.push("Your connection is broken. Coming back ..");
  if (view && view.weak) parts.push("Your connection loses packets: you get fewer pictures.");
  parts.push(Date.now() - (mine.noted || 0) < NOTES ? mine.note : "", state.trouble, state.overloaded);
  say(parts.filter(Boolean).join(" "), !isIn || mine.isMending || Boolean(state.trouble || state.overloaded));
  showPeople(mine);
  showView(mine);
  // The others see who has muted himself. An operator may have unmuted him: his microphone is off still.
  if (isIn && voice !== null && me.muted !== "operator" && (me.muted === "itself") !== isOff()) tellMute();
}

const isOff = () => at("microphone").classList.contains("off");

// Has the gateway mute or unmute the own voice at the desk. Where it doesn't, the next look asks again.
function tellMute() {
  if (call && call.told) ask(call.base, "mute", { id: call.id, muted: isOff() }).catch(() => {});
}

// The bridge names in each packet whose voices or picture it carries, by their SSRCs (the contributing sources of RFC
// 3550). The agent knows who they are. An older bridge doesn't say who speaks: then all voices are named that come.
function draw() {
  const now = performance.timeOrigin + performance.now(), figures = new Map();
  if (call.meter) at("level").value = call.meter.level();
  for (const { mid, receiver } of call.peer.getTransceivers()) {
    // Who was last heard over a second ago isn't heard now.
    const from = receiver.getContributingSources().filter(one => now - one.timestamp < 1000).map(one => one.source);
    // The agent says who they are a moment later.
    const names = call.names ? from.map(source => call.names[source] || `source ${source}`).join(", ") : "";
    if (mid === "0") { at("heard").textContent = names && !call.speech ? `You hear ${names}.` : ""; continue; }
    const figure = mid === "1" ? at("stage") : at("slot" + (mid - 1));
    // The screen has a section of its own, by which nothing comes.
    if (!figure) continue;
    figure.hidden = !from.length;
    figure.querySelector("figcaption").textContent = names;
    figures.set(figure, from);
  }
  showPictures(call, figures);
}

// Shows nobody.
function clear() {
  document.querySelectorAll("[id^=slot]").forEach(one => one.remove());
  at("stage").hidden = at("view").hidden = true;
  at("heard").textContent = "";
  at("people").replaceChildren();
}

function leave(text, wrong = false) {
  const { id, base, peer, own, meter, screen, timers = [] } = call || {};
  call = null;
  timers.forEach(clearInterval);
  if (id) ask(base, "leave", { id }).catch(() => {});
  if (peer) peer.close();
  if (own) own.getTracks().forEach(track => track.stop());
  if (screen) screen.track.stop();
  if (meter) meter.close();
  clear();
  at("own").hidden = at("level").hidden = true;
  at("join").disabled = at("name").disabled = at("room").disabled = false;
  for (const { name, texts } of switches) turn(at(name), texts, false, []);
  at("leave").disabled = at("microphone").disabled = at("camera").disabled = true;
  label();
  say(text, wrong);
}

// A switch of an own device: what its button says while the device is on, and while it is off.
const switches = [
  { name: "microphone", texts: ["Mute me", "Unmute me"], tracks: () => call.own.getAudioTracks() },
  { name: "camera", texts: ["Camera off", "Camera on"], tracks: () => call.own.getVideoTracks() },
];

function turn(button, texts, off, tracks) {
  button.classList.toggle("off", off);
  button.textContent = texts[Number(off)];
  tracks.forEach(track => { track.enabled = !off; });
}

for (const { name, texts, tracks } of switches) {
  at(name).onclick = () => {
    turn(at(name), texts, !at(name).classList.contains("off"), tracks());
    if (name === "microphone") tellMute();
  };
}

// Shows another part of the others, or who speaks.
function turnTo(page) {
  ask(call.base, "turn", { id: call.id, page }).catch(() => {});
  Object.assign(call.view, { page });
  showView(call);
}

at("speakers").onclick = () => turnTo(0);
at("before").onclick = () => turnTo(call.view.page - 1);
at("next").onclick = () => turnTo(call.view.page + 1);
for (const [kind, { choice }] of Object.entries(KINDS)) at(choice).onchange = () => choose(kind, at(choice).value);
at("try").onclick = () => tried ? endTry() : tryDevices().catch(why => say(why.message, true));
if (navigator.mediaDevices) navigator.mediaDevices.ondevicechange = listDevices;
listDevices();
at("screen").onclick = () => call.screen ? unshare(call) : share();
at("room").value = asked.get("room") || 1;
at("name").value = asked.get("name") || "guest";
// What an invitation says can't be had otherwise.
at("room").readOnly = Boolean(invitation);
at("name").readOnly = Boolean(invitation && invitation.name);
at("form").onsubmit = event => { event.preventDefault(); join(); };
at("leave").onclick = () => leave("You have left.");
addEventListener("pagehide", () => {
  if (call && call.id) navigator.sendBeacon(call.base + "leave", JSON.stringify({ id: call.id }));
});
