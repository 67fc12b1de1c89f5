// What faults say, in words.

const MEANINGS = {
  LongLine: "the line has more than 65,536 octets.",
  TooManyLines: "there are more than 4,000,000 lines.",
  UnknownLine: "the first word of the line is none that may stand there.",
  BadName: "a port's name has 1 to 15 octets, none of them a slash.",
  SecondPort: "a line before it says what the port has.",
  SecondLink: "a line before it has this link.",
  SecondClocks: "a line before it says by how much clocks differ.",
  PortTwice: "the way goes over this port twice.",
  NoLink: "no link leads from the first port to the second.",
  NoWay: "there are several ports, and the stream has no via.",
  Deletion: "a port whose gates are open has no line here.",
  UnknownPort: "the word behind dev is no port of the network.",
  Uncrossed: "no stream crosses this port.",
  SecondSchedule: "its port has a schedule already.",
  "tc-fault": "it is no schedule command.",
  FrameInReplay: "the frames of a replay are those of the capture.",
  WordCount: "the line has too few or too many words.",
  BadNumber: "a word is no number, or is out of its range.",
  ClockTooLate: "the moment is after the greatest, 9223372036854775807000 ps.",
  ShortHeader: "it ends within its first 24 octets.",
  BadMagic: "it is no classic pcap file.",
  BadVersion: "its version is not 2.4.",
  BadLink: "its link type is not Ethernet (1).",
  ShortRecord: "the capture ends within this record.",
  LongRecord: "the record has more than 262,144 octets.",
  BadFraction: "the fraction of its time stamp is a second or more.",
  TooManyRecords: "there are more than 4,000,000 records.",
};

const MOMENT = "a moment such as 20000000 (ps) or 20 us, at most 9223372036854775807000 ps";
const WANTED = {
  rate: "a line rate of the list",
  mtu: "a whole number from 68 to 9216",
  room: "a whole number from 1 to 4096",
  frames: "a whole number from 1 to 1000000000",
  silent: "classes from 0 to 7, each once, with commas between them, such as 6,7",
  cycle: "whole nanoseconds, from 1 to 4294967295, such as 1 ms",
  entries: "a whole number from 1 to 256",
  "least-interval": "whole nanoseconds, from 0 to 4294967295, such as 2 us",
  "base-time": "whole nanoseconds, from 0 to 9223372036854775807, such as 1 s",
  seed: "a whole number from 0 to 18446744073709551615, where frames aren't to come late",
  until: MOMENT,
  from: `${MOMENT}; of a picture 9223372036854774807000 ps`,
  to: `${MOMENT}, after From`,
};

/**
 * The place and the meaning of a fault.
 *
 * @param {string} text as the program says it
 * @returns {{text: string, line: number | null, source: "script" | "table" | "network" | "schedules" | null, said?: string}} `said` is its name, and what
 *   stands behind that
 */
export function explain(text) {
  const said = text.trim().replace(/^taprio_port: /, "");
  const [, option] = /^bad value of --([\w-]+)$/.exec(said) ?? [];
  if (WANTED[option]) return { text: `${said}: wanted is ${WANTED[option]}.`, line: null, source: null };
  const [, ofCapture] = /^capture (?:header|record \d+): (\w+)$/.exec(said) ?? [];
  if (MEANINGS[ofCapture]) return { text: `${said}, ${MEANINGS[ofCapture]}`, line: null, source: null };
  // (what stands behind a name are the ports, the line or the option that it is about)
  const found = /^(script|table|network|schedules) line (\d+): ([\w-]+)(.*)$/.exec(said);
  if (!found) return { text: said, line: null, source: null };
  const [, source, line, name, more] = found;
  const meaning = MEANINGS[name];
  return { text: `Line ${line}: ${name}${more}${meaning ? `, ${meaning}` : ""}`, line: Number(line), source, said: name + more };
}
