// The way of media to rtpengine: how it is made, and how the same member gets it back when its network changes.
"use strict";

// In ms: for how long candidates are gathered, and how long a new way may take, and the first one.
const GATHERS = 2000, COMES = 8000, OPENS = 20000;

const pause = ms => new Promise(done => setTimeout(done, ms));

function connected(mine) {
  const peer = new RTCPeerConnection({ iceServers: mine.ice });
  peer.ontrack = ({ track, streams: [stream], transceiver }) => {
    if (track.kind === "audio") { at("mix").srcObject = stream; return; }
    const id = transceiver.mid === "1" ? "stage" : "slot" + (transceiver.mid - 1);
    const figure = at(id) || at("own").cloneNode(true);
    if (!at(id)) { figure.id = id; at("pictures").append(figure); }
    figure.hidden = true;
    figure.querySelector("video").srcObject = stream;
  };
  peer.onconnectionstatechange = () => {
    if (mine !== call || mine.peer !== peer || mine.isComing) return;
    const { connectionState: state } = peer;
    if (state === "connected") mine.hadWay = true;
    sends(mine);
    if (mine.hadWay && (state === "disconnected" || state === "failed")) mend(mine);
    else if (state === "failed") closes();
  };
  // A browser that finds no candidate at all doesn't say that it has failed.
  const closes = () => leave("The way to the media server is closed. Is a firewall between?", true);
  pause(OPENS).then(() => { if (mine === call && mine.peer === peer && !mine.hadWay) closes(); });
  return peer;
}

// Has the browser send while there is a way, and nothing else. It would keep all sound that it makes meanwhile, and send
// that at once when the way is back: of a port that gets more than rtpengine reads in time, that never reads again.
async function sends(mine) {
  if (mine.isSwitching) return;
  mine.isSwitching = true;
  const isDue = ({ active }) => active !== (mine.peer.connectionState === "connected");
  const due = () => mine.peer.getSenders().find(one => one.getParameters().encodings.some(isDue));
  for (let one = due(); one && mine === call; one = due()) {
    const words = one.getParameters();
    for (const encoding of words.encodings) encoding.active = mine.peer.connectionState === "connected";
    // Something else may set them at the same time.
    await one.setParameters(words).catch(() => pause(100));
  }
  mine.isSwitching = false;
}

// The own description, once its candidates are gathered. Those that are late aren't in it: rtpengine learns them from
// what comes from there.
async function gathered(peer) {
  const all = new Promise(done => { peer.onicecandidate = ({ candidate }) => { if (!candidate) done(); }; });
  await peer.setLocalDescription();
  await Promise.race([all, pause(GATHERS)]);
  return peer.localDescription.sdp;
}

// Agrees with the gateway on an offer of the page. The gateway has it before the browser begins: what that sends then is
// answered by the new names of ICE alone. Else an answer to an old one makes a way that ends at once, and the browser
// tries no other. The gateway learns candidates from what comes from there.
async function agreed({ peer, base, id }, ways) {
  const offer = await peer.createOffer(ways);
  const { sdp } = await ask(base, "restart", { id, sdp: offer.sdp });
  try {
    await peer.setLocalDescription(offer);
    await peer.setRemoteDescription({ type: "answer", sdp });
  } catch (why) {
    if (peer.signalingState === "have-local-offer") await peer.setLocalDescription({ type: "rollback" });
    throw why;
  }
}

// Restarts ICE (RFC 8445 section 9). Whether there is a way then.
async function restarted(mine) {
  const { peer, ice } = mine;
  peer.setConfiguration({ iceServers: ice });
  await agreed(mine, { iceRestart: true });
  const end = Date.now() + COMES, isThere = () => peer.connectionState === "connected";
  while (!isThere() && Date.now() < end) await pause(100);
  return isThere();
}

// Finds a new way for the same connection, for as long as the gateway keeps the member.
async function mend(mine) {
  if (mine.isMending || mine.isComing) return;
  mine.isMending = true;
  const end = Date.now() + mine.told.away * 1000, goesOn = () => mine === call && !mine.isComing;
  let isThere = false, last = new Error("Your connection is broken. Press Join to come back.");
  while (goesOn() && !isThere && Date.now() < end && last.status !== 410) {
    say(`${SHORT(last.message)} Coming back ..`, true);
    isThere = await restarted(mine).catch(why => { last = why; });
    if (!isThere) await pause(TRY);
  }
  mine.isMending = false;
  if (!goesOn()) return;
  if (isThere) look();
  else if (last.again) comeAgain(mine, last);
  else leave(last.message, true);
}

const mends = () => { if (call && call.hadWay) mend(call); };
addEventListener("online", mends);
// Where the browser says so, as on a phone that leaves its Wi-Fi.
{
  const network = navigator.connection || {};
  let { type } = network;
  network.onchange = () => {
    if (network.type !== type && network.type !== "none") mends();
    ({ type } = network);
  };
}
