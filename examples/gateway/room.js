// What the page shows of the room: who is in it, who speaks and who is muted, and which picture is large.
"use strict";

// For how many ms a picture stays large at least.
const LARGE = 3000;

// By whom somebody is muted, in words.
const MUTED = { itself: "muted", operator: "muted by an operator" };

// Lists who is in the room.
function showPeople(mine) {
  const lines = mine.people.map(one => {
    const line = document.createElement("li"), isOwn = one.member === mine.told.member;
    const name = isOwn ? `${one.name} (you)` : one.name, speaks = one.speaks && !one.muted;
    const words = [name, speaks ? "speaks" : "", MUTED[one.muted], one.away && !isOwn ? "away" : ""];
    line.textContent = words.filter(Boolean).join(", ");
    line.classList.toggle("speaks", speaks);
    return line;
  });
  at("people").replaceChildren(...lines);
}

// Marks whose pictures speak or are muted. One picture is large: the stage's, or else a screen, or that of who speaks. Each
// figure comes with the cameras that it shows.
function showPictures(mine, figures) {
  const byCamera = new Map(mine.people.map(one => [one.camera, one])), speaking = [];
  for (const [figure, [camera]] of figures) {
    const one = byCamera.get(camera) || {}, speaks = Boolean(one.speaks && !one.muted);
    figure.classList.toggle("speaks", speaks);
    if (one.muted) figure.querySelector("figcaption").textContent += `, ${MUTED[one.muted]}`;
    if (speaks) speaking.push(camera);
  }
  const { large = { since: 0 } } = mine, now = Date.now();
  const screens = mine.people.map(one => one.screen).filter(Boolean);
  const [screen] = [...figures.values()].flat().filter(camera => screens.includes(camera));
  const stays = speaking.includes(large.camera) || now - large.since < LARGE;
  if (screen) mine.large = { camera: screen, since: 0 };
  else if (!stays && speaking.length) mine.large = { camera: speaking[0], since: now };
  for (const [figure, [camera]] of figures) {
    const isIt = Boolean(mine.large && mine.large.camera === camera) && at("stage").hidden;
    figure.classList.toggle("large", isIt || figure === at("stage"));
  }
}

// Which part of the others is seen, and buttons for another one.
function showView(mine) {
  const { view } = mine;
  at("view").hidden = !view || view.of < 2;
  if (!view) return;
  at("seen").textContent = view.page ? `Part ${view.page} of ${view.of}` : "You see who spoke last.";
  at("before").disabled = view.page < 2;
  at("next").disabled = view.page >= view.of;
  at("speakers").disabled = !view.page;
}
