// What is lost on the way to this page. A browser asks some ninety times for each packet of a picture that is lost, and
// what is sent again fills a narrow way: then sound is lost, too. A page that loses most of its pictures, and of its sound
// anything, does without the small ones at once.
"use strict";

// In ms, how often a page looks. Too much of pictures is lost where it is over this share of so many packets at least, in
// two looks in a row: what one short break has lost is seen by one.
const LOSES = 500, TOO_MUCH = 0.5, FEW = 10, ROW = 2;

// What has come of pictures, what of them is lost, and what of sound.
async function comes(peer) {
  const sum = { got: 0, lost: 0, sound: 0 };
  for (const one of (await peer.getStats()).values()) {
    if (one.type !== "inbound-rtp") continue;
    if (one.kind === "audio") { sum.sound += one.packetsLost; continue; }
    sum.got += one.packetsReceived;
    sum.lost += one.packetsLost;
  }
  return sum;
}

// Looks at that. Where too much is lost, the gateway is told, and ends the small pictures.
async function lookAtLosses(mine) {
  const { peer, came } = mine, now = await comes(peer);
  if (mine !== call || mine.isComing || mine.peer !== peer) return;
  const lost = came ? now.lost - came.lost : 0, all = came ? now.got - came.got + lost : 0;
  // For how many looks in a row, and what of sound was lost before the first one.
  const { looks, sound } = mine.bad || { looks: 0, sound: came ? came.sound : 0 };
  mine.bad = all >= FEW && lost > all * TOO_MUCH ? { looks: looks + 1, sound } : null;
  mine.came = now;
  if (!mine.bad || mine.bad.looks < ROW || now.sound <= sound) return;
  Object.assign(mine, { bad: null, loses: true });
  look();
  takeSmall(mine, false);
}

// Takes small pictures, or none. A browser asks no more for what is lost of those that it doesn't take.
async function takeSmall(mine, takes) {
  const { peer } = mine, direction = takes ? "recvonly" : "inactive", screen = placeOf(peer);
  const small = peer.getTransceivers().filter(one => Number(one.mid) > 1 && one !== screen);
  if (mine.isMending || mine.isAgreeing || small.every(one => one.direction === direction)) return;
  mine.isAgreeing = true;
  for (const one of small) one.direction = direction;
  const isAgreed = await agreed(mine, {}).then(() => true, () => false);
  // The next look tries again.
  if (!isAgreed) for (const one of small) one.direction = takes ? "inactive" : "recvonly";
  mine.isAgreeing = false;
}
