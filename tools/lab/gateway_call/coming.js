// The gateway's page as node runs it: a browser and gateways that say what this file has them say. It shows who speaks
// and who is muted, and asks for mutes and other pictures. A page whose call has lost its bridge, gateway or rtpengine
// comes again by itself, and one whose network has changed restarts ICE. One that loses most of its pictures does
// without small ones. Time passes six times as fast.
//
//     node coming.js SCRIPT ..
"use strict";
const fs = require("fs"), vm = require("vm");
const FASTER = 6, SCREEN = 77, elements = {}, asked = [];
let said = () => null, peers = 0;

const classes = () => {
  const names = new Set();
  return { toggle: (name, on) => names[on ? "add" : "delete"](name), contains: name => names.has(name) };
};
const at = id => elements[id] ||= {
  id, textContent: "", value: "", querySelector: () => ({}), append() {}, remove() {}, cloneNode: () => at("copy"),
  classList: classes(), replaceChildren(...lines) { this.lines = lines.map(one => one.textContent); }, disabled: false,
};

// A microphone, and what has been asked of it.
const microphones = [];
class Track {
  constructor(asks) {
    Object.assign(this, { kind: "audio", enabled: true, asks });
    microphones.push(this);
  }

  stop() { this.isOver = true; }
  clone() { return this; }
}

class Stream {
  constructor(tracks = []) { this.tracks = tracks; }
  getTracks() { return [...this.tracks]; }
  getAudioTracks() { return this.getTracks(); }
  getVideoTracks() { return []; }
  addTrack(track) { this.tracks.push(track); }
  removeTrack(track) { this.tracks = this.tracks.filter(one => one !== track); }
}

// A browser with two microphones, of which one is broken, and no camera.
async function getUserMedia({ audio, video }) {
  const { exact } = audio && audio.deviceId || {};
  if (video || exact === "broken") throw new Error("NotReadableError");
  return new Stream([new Track(exact || "")]);
}

const enumerateDevices = async () => ["good", "broken"].map(deviceId => ({ kind: "audioinput", deviceId, label: "" }));

// A screen of four times the pixels that one has at most.
const screens = [];
async function getDisplayMedia() {
  const one = { stop() { this.isOver = true; }, getSettings: () => ({ width: 3840, height: 2160 }) };
  screens.push(one);
  return { getVideoTracks: () => [one] };
}

class Peer {
  constructor({ iceServers }) {
    Object.assign(this, { servers: iceServers, number: ++peers, signalingState: "stable", restarts: 0, isWhole: true });
    Object.assign(this, { encoding: { active: true }, asksAnew: 0, refusals: 0 });
    const sender = this.sender = {
      replaceTrack: async track => { this.screen = track; },
      getStats: async () => new Map([["own", { type: "outbound-rtp", pliCount: this.asksAnew++ * this.isAnew }]]),
      getParameters: () => ({ encodings: [{ ...this.encoding }] }),
      setParameters: async ({ encodings: [one] }) => { this.encoding = one; },
    };
    const receiver = { getContributingSources: () => [] };
    this.places = ["0", "1", "2", "3"].map(mid => ({ mid, sender, receiver, direction: "recvonly" }));
    // How many packets of pictures have come, how many are lost, and how many of sound.
    Object.assign(this, { got: 0, lost: 0, deaf: 0, comes: () => [10, 0, 0] });
    this.isAnew = 0;
  }

  // The state of its way, which `is` sets.
  is(state) {
    this.connectionState = state;
    this.onconnectionstatechange();
  }

  setConfiguration({ iceServers }) { this.servers = iceServers; }

  async createOffer({ iceRestart }) {
    this.restarts += Number(Boolean(iceRestart));
    return { type: "offer", sdp: `offer ${this.restarts}` };
  }

  async setLocalDescription(wanted = {}) {
    this.signalingState = wanted.type === "rollback" || this.isAsked ? "stable" : "have-local-offer";
    this.localDescription = { sdp: this.isAsked ? "answer" : wanted.sdp };
    if (this.isAsked) setTimeout(() => this.is("connected"), 10);
    this.isAsked = false;
    if (this.isWhole) this.onicecandidate({ candidate: null });
  }

  async setRemoteDescription({ type, sdp }) {
    this.isAsked = type === "offer";
    if (type !== "answer") return;
    this.signalingState = "stable";
    if (sdp === `answer to offer ${this.restarts}`) this.is("connected");
  }

  // Some settings of the voice are refused.
  addTrack(track) {
    const voice = this.voice = {
      track, active: true, replaceTrack: async track => { voice.track = track; },
      getParameters: () => ({ encodings: [{ active: voice.active }] }),
      setParameters: async ({ encodings: [{ active }] }) => {
        if (this.refusals-- > 0) throw new Error("InvalidModificationError");
        voice.active = active;
      },
    };
  }

  // Each look finds more.
  async getStats() {
    const [got, lost, deaf] = this.comes(this.places[2].direction);
    Object.assign(this, { got: this.got + got, lost: this.lost + lost, deaf: this.deaf + deaf });
    const sound = { type: "inbound-rtp", kind: "audio", packetsReceived: 0, packetsLost: this.deaf };
    const picture = { type: "inbound-rtp", kind: "video", packetsReceived: this.got, packetsLost: this.lost };
    return new Map([["sound", sound], ["picture", picture]]);
  }

  getSenders() { return [this.voice, this.sender]; }
  getTransceivers() { return this.places; }
  close() { asked.push(`close ${this.number}`); }
}

// What a gateway answers: a status and words or fields. Nobody answers where there is none.
async function fetch(url, { body }) {
  const answer = said(url, JSON.parse(body));
  if (!/(state|leave)$/.test(url)) asked.push(`${url} ${answer ? answer[0] : "-"}`);
  if (!answer) throw new Error("nobody");
  const [status, told] = answer, isText = typeof told === "string";
  const kind = `${isText ? "text/plain" : "application/json"}; charset=utf-8`;
  const text = isText ? told : JSON.stringify(told);
  return { ok: status === 200, status, json: async () => told, text: async () => text, headers: { get: () => kind } };
}

const document = { getElementById: at, querySelectorAll: () => [], createElement: () => ({ classList: classes() }) };
const page = vm.createContext({
  document, location: { search: "?room=5&name=x&role=guest&until=9&sign=ab" },
  URLSearchParams, fetch, performance, clearInterval,
  addEventListener(name, work) { page[name] = work; },
  RTCPeerConnection: Peer, MediaStream: Stream,
  navigator: { mediaDevices: { getUserMedia, getDisplayMedia, enumerateDevices }, sendBeacon() {} },
  setInterval: (work, ms) => setInterval(work, ms / FASTER), setTimeout: (work, ms) => setTimeout(work, ms / FASTER),
  Date: { now: () => performance.now() * FASTER },
  AbortSignal: { timeout: ms => AbortSignal.timeout(ms) },
});
const scripts = process.argv.slice(2).map(one => fs.readFileSync(one, "utf8"));
vm.runInContext(`${scripts.join("\n")}\nglobalThis.current = () => call;`, page);

// What a member is told; and gateways of which each answers some requests.
const told = mix => ({
  member: 1000, voice: 1, camera: null, screen: SCREEN, away: 30, pages: ["https://x/b", "https://x/c"],
  again: { member: 1000, mix, key: "key" },
});
const person = (member, name, speaks, muted, screen = null) =>
  ({ member, name, voice: member, camera: null, screen, speaks, muted });
const state = (mix, more) => ({
  names: {}, room: 5, muted: [1], people: [person(1000, "x", false, "operator")], speech: true, view: null, trouble: "",
  overloaded: "", cut: false, ...told(mix), ice: ["a new name"], ...more,
});
const takes = (base, mix, more) => (url, body) => {
  const path = url.startsWith(base) ? url.slice(base.length) : "";
  if (path === "offer") return [200, { id: `${base}${mix}`, sdp: "offer", ice: ["a server"] }];
  const done = { mute: [200, {}], turn: [200, {}], screen: [200, {}] };
  return { answer: [200, told(mix)], state: [200, state(mix, more)], ...done }[path];
};
const moved = { words: "Room 5 is on bridge c of the fleet now.", again: true, page: "https://x/c" };
const lost = { words: "rtpengine has lost the call. Press Join to come back.", again: true, page: "" };
const MUTED = "You are member 1000 in room 5. An operator has muted your voice.";

async function until(holds) {
  for (const end = Date.now() + 20000; !holds() && Date.now() < end;) await new Promise(done => setTimeout(done, 5));
  return holds();
}

async function check(text, holds) {
  const good = await until(holds);
  console.log(`${good ? "ok" : "FAILED"}: ${text}${good ? "" : ` (${at("state").textContent} ${asked.join(", ")})`}`);
  asked.length = 0;
}

const shows = words => at("state").textContent.includes(words);
const isAt = id => page.current() && page.current().id === id && !page.current().isComing;

// What is shown of a room, and what a page asks of it.
async function tryRoom() {
  let muted = "", turned = null;
  const others = [person(1001, "Ann", true, ""), person(1002, "Bob", true, "itself")];
  said = (url, body) => {
    if (url === "mute") muted = body.muted ? "itself" : "";
    if (url === "turn") turned = body.page;
    const people = [person(1000, "x", false, muted), ...others, person(1003, "Cid", false, "operator")];
    return takes("", 7, { muted: [], people, view: { page: turned || 0, of: 3 } })(url, body);
  };
  const wanted = ["x (you)", "Ann, speaks", "Bob, muted", "Cid, muted by an operator"];
  const isListed = () => String(at("people").lines) === String(wanted);
  await check("it lists who is there, who speaks and who is muted", isListed);
  at("microphone").onclick();
  const isMuted = () => muted === "itself" && shows("You have muted yourself.");
  await check("Mute me has the gateway mute, and the page says so", isMuted);
  muted = "";
  await check("an operator unmutes who has muted himself: his page mutes him again", isMuted);
  at("microphone").onclick();
  await check("Unmute me has it unmute", () => muted === "" && !shows("muted yourself"));
  at("next").onclick();
  const isFirst = () => turned === 1 && at("seen").textContent === "Part 1 of 3";
  await check("a page shows the first part of the others", isFirst);
  at("speakers").onclick();
  await check("and who speaks again", () => turned === 0 && at("seen").textContent === "You see who spoke last.");
  said = takes("", 7, { overloaded: "The bridge is overloaded." });
  const isRed = () => at("state").classList.contains("wrong");
  await check("a bridge that is overloaded is told", () => shows(`${MUTED} The bridge is overloaded.`) && isRed());
  said = takes("", 7);
  await check("an operator's mute is told", () => shows(MUTED) && !shows("overloaded") && !isRed());
}

// A page takes another microphone, in its call.
async function tryDevices() {
  const { peer } = page.current(), choose = id => {
    at("microphones").value = id;
    at("microphones").onchange();
  };
  const isTaken = id => peer.voice.track.asks === id && page.current().own.getTracks()[0] === peer.voice.track;
  const wanted = ["as the browser chooses", "Microphone 1", "Microphone 2"];
  await check("it lists its microphones", () => String(at("microphones").lines) === String(wanted));
  const [first] = microphones;
  at("microphone").onclick();
  choose("good");
  await check("another one takes the place of the first", () => isTaken("good") && first.isOver);
  await check("which was muted, and so is this", () => !peer.voice.track.enabled);
  at("microphone").onclick();
  const { track } = peer.voice;
  choose("broken");
  await check("one that is broken isn't taken, and the page says so", () => shows("can't be used") && isTaken("good"));
  track.onended();
  await check("one that is pulled out is replaced", () => isTaken("") && peer.voice.track !== track);
  at("leave").onclick();
  at("form").onsubmit({ preventDefault() {} });
  await check("the next call takes the one that was chosen", () => isAt("7") && microphones.at(-1).asks === "good");
}

// A page shows its screen, as long as an operator doesn't take that away.
async function tryScreen() {
  const { peer } = page.current();
  let shown = false;
  said = (url, body) => {
    if (url === "screen") shown = body.shown;
    return takes("", 7, { muted: [], people: [person(1000, "x", false, "", shown ? SCREEN : null)] })(url, body);
  };
  at("screen").onclick();
  await check("Share screen shows it, and the page says how large", () =>
    shown && peer.screen === screens[0] && shows("You show your screen: at most 1920 x 1080 pixels, 5 frames"));
  const { scaleResolutionDownBy: scale, maxBitrate, maxFramerate } = peer.encoding;
  await check("it has a quarter of its pixels, and few bits and frames", () =>
    scale === 2 && maxBitrate === 2e6 && maxFramerate === 5 && peer.places.at(-1).direction === "sendonly");
  peer.isAnew = 1;
  await check("its pictures are asked for anew all the time: it has half of that", () =>
    peer.encoding.maxBitrate === 1e6 && shows("at most 1358 x 764 pixels"));
  peer.isAnew = 0;
  shown = false;
  await check("an operator takes it away: it ends, and the page says so", () =>
    screens[0].isOver && peer.screen === null && shows("An operator has taken your screen away."));
  at("screen").onclick();
  await check("it is shown once more", () => shown && screens.length === 2 && shows("You show your screen"));
  at("screen").onclick();
  await check("Stop sharing ends it", () => !shown && screens[1].isOver && !shows("your screen"));
}

// A page that loses most of its pictures does without the small ones, until the gateway gives some back.
async function tryLosses() {
  const { peer } = page.current(), small = () => peer.places[2].direction, restarts = peer.restarts;
  let isSmall = true, told = 0, isEarly = false;
  said = (url, body) => {
    if (url === "restart") {
      isEarly ||= peer.signalingState !== "stable";
      return [200, { sdp: `answer to ${body.sdp}` }];
    }
    if (url === "state" && body.loses) { told++; isSmall = false; }
    return takes("", 7, { view: { page: 0, of: 1, small: isSmall } })(url, body);
  };
  let looks = 0;
  peer.comes = () => [1, ++looks === 2 ? 90 : 0, 9];
  await check("one short break takes no pictures", () => looks > 8 && !told && small() === "recvonly");
  looks = 0;
  peer.comes = () => [5, 6, ++looks < 0];
  await check("nor do losses of pictures alone", () => looks > 8 && !told && small() === "recvonly");
  peer.comes = way => way === "inactive" ? [0, 0, 0] : [5, 6, 1];
  await check("it loses most of its pictures and some sound: it tells so, once, and takes no small ones",
    () => told === 1 && small() === "inactive" && peer.places[1].direction === "recvonly");
  peer.comes = () => [20, 10, 1];
  await check("by an offer that the gateway has first, under the same names of ICE",
    () => !isEarly && peer.restarts === restarts && peer.signalingState === "stable");
  isSmall = true;
  await check("the gateway gives some back: it takes them", () => small() === "recvonly" && told === 1);
  said = takes("", 7);
}

// A page whose network changes: its call is the same one.
async function tryNetwork() {
  await until(() => page.current().hadWay);
  const { peer } = page.current(), isSame = () => page.current().peer === peer && isAt("7") && shows(MUTED);
  const isMended = count => isSame() && !page.current().isMending && peer.restarts === count;
  let isEarly = false;
  const answers = (url, { sdp }) => {
    if (url !== "restart") return takes("", 7)(url, {});
    isEarly ||= peer.signalingState !== "stable";
    return [200, { sdp: `answer to ${sdp}` }];
  };
  said = answers;
  peer.is("disconnected");
  await check("its network changes: it restarts ICE, and goes on in its call", () => isMended(1));
  await check("by the TURN servers that it was told last", () => String(peer.servers) === "a new name");
  await check("and by an offer that the gateway has before its browser begins", () => !isEarly);
  const sends = () => [peer.voice.active, peer.encoding.active].filter(Boolean).length;
  await check("it sends then", () => sends() === 2);
  let tries = 0;
  said = (url, body) => url === "restart" && ++tries < 4 ? null : answers(url, body);
  peer.refusals = 2;
  peer.is("failed");
  await check("while its way is closed it sends nothing", () => sends() === 0);
  await check("nobody answers at first: it tries until somebody does", () => isMended(5) && tries === 4);
  peer.isWhole = false;
  page.online();
  await check("its browser is online again: it restarts ICE at once, without candidates", () => isMended(6));
  said = (url, body) => url === "restart" ? [200, { sdp: "" }] : takes("", 7)(url, body);
  peer.is("disconnected");
  await check("no way is found: it says so, and tries on", () => peer.restarts > 7 && shows("broken. Coming back"));
  said = answers;
  await check("until there is one", () => isSame() && !page.current().isMending);
}

// The end of this: the gateway has given a page's member up meanwhile.
async function tryTooLate() {
  const over = "Nothing has come from your browser for 30 s. Press Join to come back.";
  said = url => url.endsWith("restart") ? [410, over] : null;
  page.current().peer.is("disconnected");
  await check("it comes too late: it says so, and ends", () => !page.current() && shows(over));
}

(async () => {
  let shown = null;
  said = (url, body) => {
    if (url === "offer") shown = body;
    return takes("", 7)(url, body);
  };
  at("form").onsubmit({ preventDefault() {} });
  await check("a page joins", () => isAt("7") && shows(MUTED));
  const invitation = { room: "5", name: "x", role: "guest", sign: "ab", until: 9 };
  await check("by the TURN servers of the offer", () => String(page.current().peer.servers) === "a server");
  await check("by the invitation of its link, whose room and name stand", () =>
    JSON.stringify(shown) === JSON.stringify({ room: "5", name: "x", invitation }) && at("room").readOnly);
  await tryRoom();
  await tryDevices();
  await tryScreen();
  said = takes("", 7);
  await check("and all is as before", () => isAt("7") && shows(MUTED));
  await tryLosses();
  await tryNetwork();
  let tries = 0;
  const again = takes("", 8);
  said = (url, body) => {
    if (url === "state" && !tries) return [410, lost];
    if (url === "offer" && (!body.again || ++tries < 3)) return [503, "rtpengine doesn't answer."];
    return again(url, body);
  };
  const isBack = () => isAt("8") && tries === 3 && shows(MUTED);
  await check("rtpengine has lost its call: it comes again at the same gateway, once that is back", isBack);
  const c = takes("https://x/c/", 9);
  said = (url, body) => url === "state" ? [410, moved] : c(url, body);
  const isThere = () => isAt("https://x/c/9") && shows(MUTED);
  await check("its room has moved: it comes again at the gateway that it is told", isThere);
  const b = takes("https://x/b/", 10);
  said = (url, body) => url === "offer" ? null : b(url, body);
  await check("its gateway is gone: it comes again at another one", () => isAt("https://x/b/10") && shows(MUTED));
  const cut = takes("https://x/b/", 10, { cut: true, trouble: "This bridge is cut off." });
  said = (url, body) => url.endsWith("offer") ? [503, "etcd is gone"] : cut(url, body);
  const hasAsked = () => asked.includes("https://x/c/offer 503");
  await check("its bridge is cut off, and the others don't know: it asks them", hasAsked);
  await check("and goes on in its call", () => isAt("https://x/b/10") && shows("cut off"));
  said = (url, body) => /(state|answer)$/.test(url) && url.startsWith("https://x/b/") ? cut(url, body) : c(url, body);
  await check("another one has the room then: it comes again there", () => isAt("https://x/c/9"));
  said = url => url.endsWith("state") ? [410, lost] : [410, "You are no member of this call any more."];
  await check("it is no member any more: it says so, and ends", () => !page.current() && shows("no member"));
  said = takes("", 7);
  at("form").onsubmit({ preventDefault() {} });
  await check("it joins again", () => isAt("7") && shows(MUTED));
  await until(() => page.current().hadWay);
  await tryTooLate();
  process.exit(0);
})();
