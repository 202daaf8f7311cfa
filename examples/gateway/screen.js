// The own screen, which the page shows to the others as a second picture of the same member.
"use strict";

// The bridge gives up a frame of over 256 packets. So a screen has at most so many pixels, and frames and bits a second.
// Where its pictures are asked for anew in so many seconds, it gets half of the pixels and bits that it had.
const SCREEN = { width: 1920, height: 1080, frames: 5, bits: 2000000 }, ANEW = 4;

// The transceiver that the gateway's offer has for it: the last one.
const placeOf = peer => peer.getTransceivers().at(-1);

// Has the answer name the SSRC of the screen, whether it is shown or not.
function keepPlace(peer) {
  const place = placeOf(peer);
  if (place) place.direction = "sendonly";
}

// Asks which screen or window is to be shown, and shows that.
async function share() {
  const { width, height, frames } = SCREEN, mine = call;
  const wanted = { width: { max: width }, height: { max: height }, frameRate: { max: frames } };
  // Nobody may have chosen one.
  const found = await navigator.mediaDevices.getDisplayMedia({ video: wanted }).catch(() => null);
  if (!found) return;
  const [track] = found.getVideoTracks();
  if (call !== mine) { track.stop(); return; }
  track.contentHint = "detail";
  track.onended = () => unshare(mine);
  mine.screen = { track, part: 1, asked: 0, anew: 0 };
  label();
  await showScreen(mine);
}

// Shows it, also by a connection that comes later.
async function showScreen(mine) {
  const { screen } = mine;
  screen.isShown = false;
  try {
    await placeOf(mine.peer).sender.replaceTrack(screen.track);
    await boundScreen(mine);
    await ask(mine.base, "screen", { id: mine.id, shown: true });
    screen.isShown = true;
    look();
  } catch (why) {
    unshare(mine);
    tell(why.message);
  }
}

// Keeps its frames small. A window may change its size.
async function boundScreen({ peer, screen }) {
  const { sender } = placeOf(peer), { width = 0, height = 0 } = screen.track.getSettings();
  for (const one of (await sender.getStats()).values()) {
    if (one.type !== "outbound-rtp") continue;
    screen.anew = one.pliCount > screen.asked ? screen.anew + 1 : 0;
    screen.asked = one.pliCount;
  }
  if (screen.anew >= ANEW) Object.assign(screen, { part: screen.part / 2, anew: 0 });
  const words = sender.getParameters(), pixels = SCREEN.width * SCREEN.height * screen.part;
  const wanted = {
    scaleResolutionDownBy: Math.max(1, Math.sqrt(width * height / pixels)),
    maxBitrate: SCREEN.bits * screen.part, maxFramerate: SCREEN.frames,
  };
  const [encoding] = words.encodings;
  if (!encoding || Object.entries(wanted).every(([name, value]) => encoding[name] === value)) return;
  Object.assign(encoding, wanted);
  await sender.setParameters(words);
}

function unshare(mine, isTaken = false) {
  const { screen } = mine;
  if (!screen) return;
  screen.track.stop();
  Object.assign(mine, { screen: null, isTaken });
  label();
  if (call !== mine) return;
  placeOf(mine.peer).sender.replaceTrack(null).catch(() => {});
  ask(mine.base, "screen", { id: mine.id, shown: false }).catch(() => {});
}

// Looks at it each second: whether an operator has taken it away, and how large it is. What the page says of it.
function lookAtScreen(mine, me, muted) {
  const { screen } = mine;
  if (!screen) return mine.isTaken ? "An operator has taken your screen away." : "";
  if (!screen.isShown) return "";
  if (me.screen === null) { unshare(mine, true); return ""; }
  boundScreen(mine).catch(() => {});
  const pixels = Math.sqrt(screen.part), { width, height, frames } = SCREEN;
  const most = `${Math.round(width * pixels)} x ${Math.round(height * pixels)}`;
  const is = muted.includes(mine.told.screen) ? "An operator has stopped your screen" : "You show your screen";
  return `${is}: at most ${most} pixels, ${frames} frames a second.`;
}

// What the button is for.
function label() {
  const canShow = Boolean(call && call.told && call.told.screen && navigator.mediaDevices.getDisplayMedia);
  at("screen").disabled = !canShow;
  at("screen").textContent = call && call.screen ? "Stop sharing" : "Share screen";
}
