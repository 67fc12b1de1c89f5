// A plan: the schedules that are found for streams, or why there are none.
import { isNetwork } from "./captures.js";
import { valuesOfPort } from "./paths.js";
import { linesOf, readScript } from "./script.js";
import { count } from "./words.js";

// Why there is none, in words; what is told behind the reason stands in them.
const WITHOUT = {
  overloaded: (kind) => `The frames of class ${kind} and of those above it need more time than there is, under any schedule.`,
  deadline: (id) => `No schedule is found that meets the deadline of stream ${id}.`,
  lost: (kind) => `No schedule is found: frames of class ${kind} would be lost. With deadlines its streams get windows.`,
  dropped: (id) => `No schedule is found: each frame of stream ${id} is dropped when it comes, by its priority or its length.`,
  entries: () => "No schedule is found that has so few entries.",
  cycle: () => "No schedule is found: no cycle fits, or the one that is given is too short.",
  classes: () => "No schedule is found: the streams have more than eight priorities.",
  streams: () => "The table has no stream.",
};

/** The schedules in a text, each with its line and its port. */
export const schedulesIn = (text) =>
  readScript(text).commands.map(({ line: number, words }) => ({ number, name: words[words.indexOf("dev") + 1], line: words.join(" ") }));

/**
 * The values of a port that a plan is for.
 *
 * @param {string} streams a table, or a network, whose lines say what its ports have
 */
export const valuesOfPlanned = (streams, name, values) => valuesOfPort(isNetwork(streams) ? streams : "", name, values);

/** How many frames the streams of a table have, by their words. */
export function countOfFrames(table) {
  const streams = [...linesOf(table)].map(({ line }) => line.split(/[ \t\r]+/).filter(Boolean)).filter(([word]) => word === "stream");
  return streams.reduce((sum, words) => sum + (Number(words[6]) || 0), 0);
}

/** What a plan comes to. */
export function planVerdict(streams, answers) {
  const [, reason, number] = /^none (\w+)(?: (?:class )?(\d+))?$/m.exec(answers) ?? [];
  if (reason) return WITHOUT[reason](number);
  const found = schedulesIn(answers).length;
  const head = found === 1 ? "A schedule is found" : `${count(found, "schedule")} are found, one for each port that streams cross`;
  const isDue = /^[ \t]*stream[ \t].*[ \t]deadline[ \t]/m.test(streams);
  return isDue ? `${head}: every deadline is met, for ever.` : `${head}. No stream has a deadline.`;
}
