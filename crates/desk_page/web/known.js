// What the page knows. All files read it, and many change it.
import { NOBODY } from "./people.js";

// The desk and its text, its history, the calls of the log, the names, and what the bridge counts.
export let desk = null, shownText = null, past = null, calls = new Map();
export let names = {}, namesVersion = -1, stats = null;
// The link: when news last came, what the program says of its bridge, and whether the page asks for the desk, or will.
export let lastNews = performance.now(), since = null, told = "", asking = false, timer = null;
// Who is at this page; which member is open, which call of the history is unfolded, which number filters the list, what
// is dragged, and the lines that are collected.
export let me = NOBODY, opened = null, walked = null, filter = "", drag = null, group = [];
// What is folded and picked, the last member in each room, gains that are shown though they are even, sliders at rest
// until their line is sent, and the numbers that forms suggest.
export const folded = new Map(), picked = new Set(), here = new Map();
export const widened = new Set(), resting = new Map(), suggestions = new Map();
// Which control is pressed, the versions that calls of this page made, when others have last changed an object or a
// member, and how long such a member is marked, in milliseconds.
export let pressed = null;
export const mine = new Set(), touchedAt = new Map(), freshAt = new Map(), MARKED = 3000;
// What stands still: when places changed last, and were ordered, and whether something beside the list is held.
export let movedAt = -Infinity, orderedAt = -Infinity, heldAside = false;

// How other files change these: what is imported can't be assigned.
export const set = {
  desk: (it) => (desk = it),
  shownText: (it) => (shownText = it),
  past: (it) => (past = it),
  calls: (it) => (calls = it),
  names: (it) => (names = it),
  namesVersion: (it) => (namesVersion = it),
  stats: (it) => (stats = it),
  lastNews: (it) => (lastNews = it),
  since: (it) => (since = it),
  told: (it) => (told = it),
  asking: (it) => (asking = it),
  timer: (it) => (timer = it),
  me: (it) => (me = it),
  opened: (it) => (opened = it),
  walked: (it) => (walked = it),
  filter: (it) => (filter = it),
  drag: (it) => (drag = it),
  group: (it) => (group = it),
  pressed: (it) => (pressed = it),
  movedAt: (it) => (movedAt = it),
  orderedAt: (it) => (orderedAt = it),
  heldAside: (it) => (heldAside = it),
};
