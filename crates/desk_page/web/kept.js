// The desk as a file: groups that make all its rows again, as `tools/bridge keep` prints them. No function touches the
// page.
import { MOST_PARTS } from "./overview.js";

// A stream begins anew at its FIRST_SEQ, which is moved on, or a receiver might take new packets for old ones.
const FURTHER = 1000, MOST_OCTETS = 4096;
// The command that makes a row of each kind, and the first word of the row that the command has too.
const MAKING = { room: ["add-room", 1], member: ["add-member", 2], source: ["add-source", 1], slot: ["add-slot", 1],
  sub: ["subscribe", 1], mute: ["mute", 1], gain: ["set-gain", 1], pin: ["pin", 1], floor: ["give-floor", 1] };

function commandOf(row) {
  const words = row.split(" "), [verb, first] = MAKING[words[0]], place = words.length - 2;
  if (["member", "slot"].includes(words[0])) words[place] = String((Number(words[place]) + FURTHER) % 65536);
  return [verb, ...words.slice(first)].join(" ");
}

// As few groups as these commands take, in their order.
function groupsOf(commands) {
  const groups = [];
  let count = MOST_PARTS;
  for (const command of commands) {
    const last = groups.length - 1;
    if (count === MOST_PARTS || groups[last].length + " / ".length + command.length > MOST_OCTETS) {
      groups.push(`group ${command}`);
      count = 1;
    } else {
      groups[last] += ` / ${command}`;
      count += 1;
    }
  }
  return groups;
}

// The last line tells how much there is: without it the file was cut.
function endOf(groups) {
  return `# end: ${groups.length} groups of ${groups.flatMap((group) => group.split(" / ")).length} commands`;
}
export function keptText(desk) {
  const groups = groupsOf(desk.rows.map(commandOf));
  const head = `# the desk of version ${desk.version}: FIRST_SEQ of each stream is ${FURTHER} further on, as streams `;
  return `${[`${head}begin anew`, ...groups, endOf(groups)].join("\n")}\n`;
}

// The groups of such a text, or null where it isn't whole.
export function groupsIn(text) {
  const lines = text.split("\n").filter((line) => line !== ""), groups = lines.filter((line) => !line.startsWith("#"));
  const areGroups = groups.every((group) => group.startsWith("group ") && group.length <= MOST_OCTETS);
  return areGroups && lines[lines.length - 1] === endOf(groups) ? groups : null;
}
