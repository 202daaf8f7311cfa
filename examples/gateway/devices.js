// Which microphone, camera and loudspeaker the page takes, and how loud the own microphone is. What was chosen is kept for
// the next time.
"use strict";

// The level in dB below full scale at which the meter is empty.
const FLOOR = -60;
// By the kind of a device: its choice on the page, and what a stream has of it.
const KINDS = {
  audioinput: { choice: "microphones", name: "Microphone", media: "audio" },
  videoinput: { choice: "cameras", name: "Camera", media: "video" },
  audiooutput: { choice: "loudspeakers", name: "Loudspeaker" },
};
// The devices that are tried before a call, if any are: their stream, the meter, and its timer.
let tried = null;

// What was chosen of each kind, a device's id: nothing where the browser is to choose. One may forbid a page to keep it.
const choices = {};
function chosen(kind) {
  try { choices[kind] ??= localStorage.getItem(kind); } catch {}
  return choices[kind] || "";
}
function keep(kind, id) {
  choices[kind] = id;
  try { localStorage.setItem(kind, id); } catch {}
}

// What is asked of a microphone or a camera with this id. `?plain` leaves the sound as it comes.
function wanted(media, id) {
  const process = !plain, exact = id ? { deviceId: { exact: id } } : {};
  const audio = { echoCancellation: process, noiseSuppression: process, autoGainControl: process };
  return { ...(media === "audio" ? audio : { width: 640, height: 480 }), ...exact };
}

// Microphone and camera, or what there is of them. Who has neither, or doesn't allow them, listens.
async function devices() {
  if (!navigator.mediaDevices) throw new Error("Browsers give the camera to pages over HTTPS and to localhost alone.");
  const own = { audio: wanted("audio", chosen("audioinput")), video: wanted("video", chosen("videoinput")) };
  // A device that was chosen may be gone.
  const any = { audio: wanted("audio"), video: wanted("video") };
  for (const asks of [own, any, { audio: own.audio }, { audio: any.audio }, { video: own.video }, { video: any.video }]) {
    const found = await navigator.mediaDevices.getUserMedia(asks).catch(() => null);
    if (found) { listDevices(); return found; }
  }
  return new MediaStream();
}

// Fills the choices. Browsers tell the names of devices to pages that may use them.
async function listDevices() {
  if (!navigator.mediaDevices || !navigator.mediaDevices.enumerateDevices) return;
  const all = await navigator.mediaDevices.enumerateDevices();
  for (const [kind, { choice, name }] of Object.entries(KINDS)) {
    const found = all.filter(one => one.kind === kind && one.deviceId);
    const lines = [{ deviceId: "", label: "as the browser chooses" }, ...found].map(({ deviceId, label }, number) => {
      const line = document.createElement("option");
      Object.assign(line, { value: deviceId, textContent: label || `${name} ${number}` });
      return line;
    });
    at(choice).replaceChildren(...lines);
    at(choice).value = found.some(one => one.deviceId === chosen(kind)) ? chosen(kind) : "";
    at(choice).disabled = !found.length || kind === "audiooutput" && !at("mix").setSinkId;
  }
}

// Takes another device of a kind, at once where a call has one: the member and its sources stay.
async function choose(kind, id) {
  const { media, name } = KINDS[kind];
  try {
    if (kind === "audiooutput") await at("mix").setSinkId(id);
    else if (call && call.own) await replace(call, media, id);
    keep(kind, id);
    if (!call && tried) { endTry(); await tryDevices(); }
  } catch (why) {
    tell(`${name}: this device can't be used (${why.message}).`);
    listDevices();
  }
}

async function replace(mine, media, id) {
  const { own, peer } = mine, [old] = own.getTracks().filter(one => one.kind === media);
  if (!old) throw new Error("this call has none: leave it, and join again");
  // Some cameras can be opened once alone, and the new one may be the old one.
  const found = await navigator.mediaDevices.getUserMedia({ [media]: wanted(media, id) });
  const [track] = found.getTracks();
  if (mine !== call) { track.stop(); return; }
  track.enabled = old.enabled;
  await peer.getSenders().find(one => one.track === old).replaceTrack(track);
  own.removeTrack(old);
  old.stop();
  own.addTrack(track);
  watchTrack(mine, track);
  if (media === "audio") measure(mine);
}

// A device that is pulled out is replaced by one that is there.
function watchTrack(mine, track) {
  track.onended = () => { if (mine === call) replace(mine, track.kind, "").catch(why => tell(why.message)); };
}

// Shows how loud the microphone of a call or a try is.
function measure(one) {
  if (one.meter) one.meter.close();
  one.meter = metered(one.own);
  at("level").hidden = !one.meter;
}

// Tries the devices before a call: the own picture and the level are shown.
async function tryDevices() {
  const own = await devices();
  if (call) { own.getTracks().forEach(track => track.stop()); return; }
  tried = { own };
  measure(tried);
  at("own").querySelector("video").srcObject = own;
  at("own").hidden = !own.getVideoTracks().length;
  tried.timer = setInterval(() => { if (tried && tried.meter) at("level").value = tried.meter.level(); }, 200);
}

function endTry() {
  if (!tried) return;
  clearInterval(tried.timer);
  tried.own.getTracks().forEach(track => track.stop());
  if (tried.meter) tried.meter.close();
  at("own").hidden = at("level").hidden = true;
  tried = null;
}

// A level meter of a microphone, which hears it also while it is muted. None where there is no microphone.
function metered(stream) {
  const [track] = stream.getAudioTracks();
  if (!track || typeof AudioContext === "undefined") return null;
  const own = track.clone(), context = new AudioContext(), analyser = context.createAnalyser();
  own.enabled = true;
  context.createMediaStreamSource(new MediaStream([own])).connect(analyser);
  context.resume();
  const samples = new Float32Array(analyser.fftSize);
  return {
    // From 0 to 1.
    level() {
      analyser.getFloatTimeDomainData(samples);
      const power = samples.reduce((sum, x) => sum + x * x, 0) / samples.length;
      return Math.max(0, 1 - 10 * Math.log10(power + 1e-12) / FLOOR);
    },
    close() {
      own.stop();
      context.close();
    },
  };
}
