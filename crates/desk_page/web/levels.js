// How loud a source of sound is, and who speaks, by what two counts differ in. No function touches the page.

// The energy of the loudest sample in the bridge's units, and how many times less -45 and -52 dBov are.
const LOUDEST = 2 ** 20, LOUD = 31623, QUIET = 158489;
// One speaks after so many loud quarters of a second in a row, and ceases after so many quiet ones.
const QUARTER = 250, LOUD_ROW = 2, QUIET_ROW = 4;
// The least level that is told, that of a span without a sample (RFC 6464). Two counts that are further apart than so
// many milliseconds say nothing of now.
export const LEAST_LEVEL = -127, LONGEST_SPAN = 5000;
const NO_SOUND = { level: null, isSpeaking: false, loud: 0, quiet: 0 };

// The level of a span in dBov, by its samples and their energy.
export function levelOf(samples, energy) {
  return samples > 0 ? Math.max(LEAST_LEVEL, 10 * Math.log10(energy / (LOUDEST * samples))) : LEAST_LEVEL;
}

// Who speaks, after a span of so many milliseconds. The rule is of quarters of a second. Who counts less often takes
// each quarter for as loud as the whole span.
export function speechAfter({ isSpeaking, loud, quiet }, samples, energy, ms) {
  const quarters = Math.max(1, Math.round(ms / QUARTER));
  const isLoud = energy * LOUD > samples * LOUDEST, isQuiet = samples === 0 || energy * QUIET < samples * LOUDEST;
  const louder = isLoud ? Math.min(LOUD_ROW, loud + quarters) : 0;
  const quieter = isQuiet ? Math.min(QUIET_ROW, quiet + quarters) : 0;
  return { isSpeaking: louder === LOUD_ROW || (isSpeaking && quieter < QUIET_ROW), loud: louder, quiet: quieter };
}

// What a count tells of a source's sound, with the one before. A source that wasn't counted before, or that was
// forgotten meanwhile, began at 0. Before a first count nothing is known, and of a picture never.
export function soundOf(now, before, ms) {
  if (typeof now.samples !== "number" || ms === null || ms > LONGEST_SPAN) return NO_SOUND;
  const isSame = typeof before?.samples === "number" && before.samples <= now.samples;
  const samples = now.samples - (isSame ? before.samples : 0), energy = now.energy - (isSame ? before.energy : 0);
  return { level: levelOf(samples, energy), ...speechAfter(before?.sound ?? NO_SOUND, samples, energy, ms) };
}

// A level in words, of a member that is muted or not.
export function levelInWords(level, isSpeaking = false, isMuted = false) {
  if (level === null) return "level not known";
  if (level === LEAST_LEVEL) return "no sound";
  const dbov = `${Math.round(level).toString().replace("-", "\u2212")} dBov`;
  if (!isSpeaking) return dbov;
  return `${isMuted ? "speaks while muted" : "speaks"}, ${dbov}`;
}
// A gain of 256ths in words.
export const gainInWords = (q8) => `x${(q8 / 256).toFixed(2)}`;
// The span of two counts in words.
export function spanInWords(ms) {
  return ms === null || ms > LONGEST_SPAN ? "" : `last ${Math.max(1, Math.round(ms / 1000))} s`;
}
