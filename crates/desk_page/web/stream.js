// The stream of events: the page's program tells what happens, and isn't asked for it. Where no stream can be had, the
// page asks as often as it does without one.
import { closedBy, closedInWords, editedText, withCalls } from "./news.js";
import { GONE } from "./rules.js";
import { calls, desk, drag, lastNews, past, set, shownText, timer, told } from "./known.js";
import { at } from "./view.js";
import { judge, show, take } from "./link.js";

// How long after a stream was refused another one is tried, and how long a tab that nobody sees keeps its own: browsers
// have six connections to a host for all of their tabs.
const RETRIED = 5000, KEPT_HIDDEN = 30000;
let stream = null, isHeard = false, openedAt = -Infinity, hiding = null, coming = Promise.resolve();
export const isFollowed = () => isHeard && stream?.readyState === EventSource.OPEN;

// News came. What the program says of its bridge stays.
function newsCame() {
  set.lastNews(performance.now());
  if (!told) set.since(new Date().toTimeString().slice(0, 8));
  judge();
}
const onEvent = {
  hello: (state) => {
    isHeard = true;
    clearTimeout(timer);
    if (!desk || desk.state !== state) return show();
    set.told("");
    return newsCame();
  },
  desk: (edit) => {
    const text = shownText === null || drag ? null : editedText(shownText, edit);
    return text === null ? show() : take(text);
  },
  lease: (state) => showClosed(closedBy(state)),
  call: (line) => { set.calls(withCalls(calls, line)); },
  bridge: (word) => {
    set.told({ gone: "bridge", busy: "seats" }[word] ?? "");
    newsCame();
    return told ? null : show();
  },
  beat: () => {
    newsCame();
    const isBehind = desk && shownText !== null && !told && past?.version !== desk.version;
    return isBehind ? take(shownText) : null;
  },
};
// Says at the top that the desk is closed. The list moves by that line, so that a press just then is refused.
function showClosed(name) {
  const text = name === null ? "" : closedInWords(name);
  if (at("closed").textContent === text) return;
  at("closed").textContent = at("closed").title = text;
  document.body.classList.toggle("closed", name !== null);
  set.movedAt(performance.now());
}
export function openStream() {
  closeStream();
  openedAt = performance.now();
  stream = new EventSource("/events");
  for (const [name, take] of Object.entries(onEvent)) {
    stream.addEventListener(name, ({ data }) => { coming = coming.then(() => take(data)).catch(console.error); });
  }
  stream.addEventListener("error", () => {
    isHeard = false;
    show();
  });
}
export function closeStream() {
  stream?.close();
  stream = null;
  isHeard = false;
}
// Opens a stream again that was refused, or that says nothing any more.
export function watchStream() {
  if (!stream || performance.now() - openedAt < RETRIED) return;
  const isSilent = isHeard && performance.now() - lastNews > GONE;
  if (stream.readyState === EventSource.CLOSED || isSilent) openStream();
}
document.addEventListener("visibilitychange", () => {
  clearTimeout(hiding);
  if (document.visibilityState !== "visible") hiding = setTimeout(closeStream, KEPT_HIDDEN);
  else if (!stream) openStream();
});
