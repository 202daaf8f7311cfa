// What `tools/bridge check gateway` measures in a page that has joined a call.
"use strict";

// A camera of 15 frames a second: three browsers and the bridge may share a small machine.
const camera = navigator.mediaDevices.getUserMedia.bind(navigator.mediaDevices);
const small = { width: 320, height: 240, frameRate: 15 };
navigator.mediaDevices.getUserMedia = ({ audio, video }) =>
  camera({ audio, video: video && { ...video, ...small } });

// Devices for a browser that takes no files for them: a tone, and a picture of 15 frames a second whose upper half has
// a colour.
window.makeDevices = (tone, level, colour) => {
  const context = new AudioContext(), wave = context.createOscillator(), gain = context.createGain();
  const voice = context.createMediaStreamDestination();
  wave.frequency.value = tone;
  gain.gain.value = level;
  wave.connect(gain).connect(voice);
  wave.start();
  const canvas = Object.assign(document.createElement("canvas"), { width: 320, height: 240 });
  const paint = canvas.getContext("2d");
  setInterval(() => {
    paint.fillStyle = colour;
    paint.fillRect(0, 0, 320, 120);
    paint.fillStyle = `hsl(${performance.now() / 10 % 360} 50% 50%)`;
    paint.fillRect(0, 120, 320, 120);
  }, 1000 / 15);
  const tracks = [...voice.stream.getTracks(), ...canvas.captureStream(15).getTracks()];
  navigator.mediaDevices.getUserMedia = async () => new MediaStream(tracks.map(track => track.clone()));
};

// A screen for a browser that takes none: its upper half has a colour, and the lower one noise, which is hard to code.
// While it is noisy there is other noise in each of its frames.
window.makeScreen = (width, height, colour) => {
  const noise = [0, 1].map(() => {
    const one = new OffscreenCanvas(width, height / 2), paint = one.getContext("2d");
    const data = paint.createImageData(width, height / 2);
    for (let at = 0; at < data.data.length; at += 65536) crypto.getRandomValues(data.data.subarray(at, at + 65536));
    paint.putImageData(data, 0, 0);
    return one;
  });
  navigator.mediaDevices.getDisplayMedia = async () => {
    const canvas = Object.assign(document.createElement("canvas"), { width, height }), paint = canvas.getContext("2d");
    const stream = canvas.captureStream(5);
    let count = 0;
    const timer = setInterval(() => {
      if (stream.getTracks()[0].readyState === "ended") { clearInterval(timer); return; }
      paint.fillStyle = colour;
      paint.fillRect(0, 0, width, height / 2);
      paint.drawImage(noise[window.noisy ? ++count % 2 : 0], 0, height / 2);
      paint.fillStyle = `hsl(${performance.now() / 10 % 360} 50% 50%)`;
      paint.fillRect(0, height - 40, 40, 40);
    }, 200);
    return stream;
  };
};

// What colour the upper half of a frame or a video has.
const shades = new OffscreenCanvas(16, 12).getContext("2d", { willReadFrequently: true });
function colourOf(picture) {
  shades.drawImage(picture, 0, 0, 16, 12);
  const [r, g, b] = shades.getImageData(8, 2, 1, 1).data;
  if (r > 150 && g > 150) return "yellow";
  return r > g && r > b ? "red" : b > g ? "blue" : "green";
}

// The number below a frame, as callers.py paints it: eight boxes, of which an odd count is white. None is null.
const digits = new OffscreenCanvas(16, 8).getContext("2d", { willReadFrequently: true });
function numberOf(picture) {
  digits.drawImage(picture, 0, 0, 16, 8);
  const { data } = digits.getImageData(0, 7, 16, 1);
  const boxes = [0, 1, 2, 3, 4, 5, 6, 7].map(at => data[8 * at] + data[8 * at + 4] > 255 ? 1 : 0);
  if (boxes.reduce((sum, one) => sum + one, 0) % 2 === 0) return null;
  return boxes.slice(0, 7).reduce((sum, one, at) => sum + one * 2 ** at, 0);
}

// What came in a slot between two moments: the frames, the longest time without one, and what their numbers say. A
// picture has so many frames until it begins anew.
const ROUND = 60, KEPT = 3000;
window.flow = (slot, begun, end) => {
  const seen = ((shown[slot] || {}).seen || []).filter(([at]) => at >= begun && at <= end);
  const moments = [begun, ...seen.map(([at]) => at), end], numbers = seen.map(([, number]) => number);
  const gaps = moments.slice(1).map((at, before) => at - moments[before]);
  const read = numbers.filter(one => one !== null);
  const steps = read.slice(1).map((one, before) => (one - read[before] + ROUND) % ROUND);
  const isLater = one => one > 0 && one < ROUND / 2;
  const missing = steps.filter(isLater).reduce((sum, one) => sum + one - 1, 0);
  return [seen.length, Math.round(Math.max(...gaps)), read.length, missing, steps.filter(one => !isLater(one)).length];
};

// Each decoded frame of a slot, before it is drawn: when the last one came, how many came, when the picture changed.
window.shown = {};
window.watchFrames = () => {
  for (const { mid, receiver } of call.peer.getTransceivers()) {
    if (mid === "0" || shown[mid - 1] || !window.MediaStreamTrackProcessor) continue;
    const slot = shown[mid - 1] = { frames: 0, last: 0, colour: "", changes: [], seen: [] };
    const reader = new MediaStreamTrackProcessor({ track: receiver.track.clone() }).readable.getReader();
    const next = ({ value: frame, done }) => {
      if (done) return;
      const at = performance.timeOrigin + performance.now();
      const colour = colourOf(frame);
      slot.seen.push([at, numberOf(frame)]);
      if (slot.seen.length > KEPT) slot.seen.shift();
      frame.close();
      // After half a second without a frame the same picture is a new one.
      if (colour !== slot.colour || at - slot.last > 500) slot.changes.push([at, colour]);
      Object.assign(slot, { colour, last: at, frames: slot.frames + 1 });
      reader.read().then(next);
    };
    reader.read().then(next);
  }
};

// How many frames of each slot were decoded.
async function decoded() {
  const stats = [...(await call.peer.getStats()).values()];
  const pictures = stats.filter(one => one.type === "inbound-rtp" && one.mid > 0);
  return Object.fromEntries(pictures.map(one => [one.mid - 1, one.framesDecoded || 0]));
}

// The colours of the slots that show something now, by slot. Where a page can't have frames before they are drawn, they
// are read from what its slots show, if frames come.
window.colours = async () => {
  if (!window.MediaStreamTrackProcessor) {
    const before = await decoded();
    await new Promise(done => setTimeout(done, 700));
    const coming = Object.entries(await decoded()).filter(([slot, count]) => count > before[slot]);
    const video = slot => document.querySelector(slot === "0" ? "#stage video" : `#slot${slot} video`);
    return Object.fromEntries(coming.map(([slot]) => [slot, colourOf(video(slot))]));
  }
  const now = performance.timeOrigin + performance.now();
  const showing = Object.entries(shown).filter(([, slot]) => now - slot.last < 700);
  return Object.fromEntries(showing.map(([at, slot]) => [at, slot.colour]));
};

// The levels of tones in what the page plays, by Goertzel's way: 1 is full.
let analyser = null;
window.levels = async tones => {
  if (!analyser) {
    const context = new AudioContext();
    analyser = context.createAnalyser();
    analyser.fftSize = 16384;
  }
  // A page that joins again gets another stream.
  const stream = document.getElementById("mix").srcObject;
  if (analyser.heard !== stream) {
    if (analyser.source) analyser.source.disconnect();
    analyser.source = analyser.context.createMediaStreamSource(analyser.heard = stream);
    analyser.source.connect(analyser);
  }
  await new Promise(done => setTimeout(done, 450));
  const data = new Float32Array(analyser.fftSize);
  analyser.getFloatTimeDomainData(data);
  return tones.map(tone => {
    const c = 2 * Math.cos(2 * Math.PI * tone / analyser.context.sampleRate);
    let a = 0, b = 0;
    for (const x of data) [a, b] = [x + c * a - b, a];
    return 2 * Math.sqrt(Math.max(0, a * a + b * b - c * a * b)) / data.length;
  });
};

// What the connection counts of one m-section and direction.
window.counts = async (type, mid) => {
  for (const one of (await call.peer.getStats()).values()) if (one.type === type && one.mid === mid) return one;
  return {};
};
