// Two minutes of a member's figures, and the lines that draw them. No function touches the page.
import { figuresOf } from "./stats.js";

// How far back a trace goes, in milliseconds, and the size of a plot in units of its own.
export const TRACED = 120000, PLOT_WIDTH = 120, PLOT_HEIGHT = 20;
// What is traced, each with the lowest value and the least value that reaches the top of its plot.
export const PLOTS = [
  ["level", -60, -10], ["lossIn", 0, 0.1], ["jitter", 0, 60], ["lossOut", 0, 0.1], ["trip", 0, 300],
];

// A trace with one more sample: the moment and the figures of then.
export function traced(trace, at, figures) {
  const kept = trace.filter(([then]) => then > at - TRACED);
  return [...kept, [at, ...PLOTS.map(([name]) => figures[name])]];
}
// The traces of all members, and of no other ones.
export function tracedAll(traces, desk, stats) {
  return new Map(desk.members.map((member) =>
    [member.member, traced(traces.get(member.member) ?? [], stats.at, figuresOf(desk, stats, member))]));
}

// The line of one figure, as a path from the left edge two minutes ago to the right edge now. Where nothing is known
// the line has a gap, and a sample by itself is a dot.
export function plotted(trace, place, now) {
  const [, lowest, least] = PLOTS[place], known = trace.map((sample) => sample[place + 1]);
  const highest = Math.max(least, ...known.filter((value) => value !== null));
  let path = "", isOn = false;
  trace.forEach(([then], at) => {
    const value = known[at], x = PLOT_WIDTH * (1 - (now - then) / TRACED);
    const share = value === null ? 0 : Math.max(0, value - lowest) / (highest - lowest);
    if (value !== null) path += `${isOn ? "L" : "M"}${x.toFixed(1)} ${(PLOT_HEIGHT * (1 - share)).toFixed(1)}`;
    if (value !== null && !isOn) path += "h.1";
    isOn = value !== null;
  });
  return path;
}
