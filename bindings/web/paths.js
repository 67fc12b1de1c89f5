// Paths through a network: what is told of each, of the waits at each port on it, and of the classes of the ports.
import { classWords, deadlinesSaid, listed } from "./bounds.js";
import { linesOf } from "./script.js";
import { count } from "./words.js";

const CLASS_LINE = /^class (\d) (?:within most (\d+) of (\d+)|(.+))$/;
const HOP_LINE = /^hop (\d+)(?: ([^ /]+))? class (\d) within (\d+) to (\d+)$/;
const PATH_END = /^path (\d+) end (\d+) to (\d+)(?: deadline (\d+) (met|missed|unknown))?$/;
const PATH_STOP = /^path (\d+) (none|unknown)(?: at ([^ /]+))?$/;

// A class of a port.
function classOf(port, apart, [line, kind, most, room, word]) {
  const bounded = BigInt(most ?? 0) <= BigInt(room ?? 0) ? "bounded" : "too little room";
  return {
    port, class: Number(kind), apart: apart.includes(kind) ? "yes" : "no", most: most === undefined ? null : Number(most), room: room === undefined ? null : Number(room),
    verdict: word ?? bounded, line, tone: /^(?:stuck|full|overloaded)/.test(word ?? "") ? "bad" : "",
  };
}

// The wait of a stream at a port.
const hopOf = ([, id, port, kind, least, greatest]) => ({ id, port: port ?? "", class: Number(kind), least: BigInt(least), greatest: BigInt(greatest) });

// A path to its end. It has what a stream of bounds has, where both are drawn.
function endOf([, id, first, last, deadline, verdict]) {
  const due = deadline === undefined ? null : BigInt(deadline);
  return { id, first: BigInt(first), last: BigInt(last), deadline: due, verdict: verdict ?? "", told: "bounded", within: true, stop: null, tone: verdict === "missed" ? "bad" : "" };
}

// A path whose frames are dropped at a port, or of which nothing is known from a port on.
function stopOf([, id, word, port]) {
  const told = `${word === "none" ? "dropped" : "not known"}${port === undefined ? "" : ` at ${port}`}`;
  return { id, first: null, last: null, deadline: null, verdict: "", told, within: true, stop: word, tone: word === "none" ? "bad" : "" };
}

/**
 * What a run of paths tells.
 *
 * @param {string} answers
 * @returns {{ports: string[], classes: object[], hops: object[], paths: object[], cyclic: string[]}} the names of the ports, the classes of each
 *   that have streams, the waits at each port, the paths, and the classes in circles, each as PORT/CLASS
 */
export function pathsIn(answers) {
  const found = { ports: [], classes: [], hops: [], paths: [], cyclic: [] };
  let [name, apart] = ["", []];
  for (const line of answers.split("\n")) {
    const [word, ...words] = line.split(" ");
    if (word === "port") [name] = words;
    else if (word === "apart") {
      apart = words;
      found.ports.push(name);
    } else if (word === "cyclic") found.cyclic = words;
    const [kind, hop, end, stop] = [CLASS_LINE, HOP_LINE, PATH_END, PATH_STOP].map((it) => it.exec(line));
    if (kind) found.classes.push(classOf(name, apart, kind));
    else if (hop) found.hops.push(hopOf(hop));
    else if (end || stop) found.paths.push(end ? endOf(end) : stopOf(stop));
  }
  return found;
}

// Why a class has no bounds of its own, with its port.
function whyNone({ port, line }, write) {
  const words = CLASS_LINE.exec(line)[2] === undefined ? classWords(line, write) : null;
  return words && (port ? `At ${port}: ${words[0].toLowerCase()}${words.slice(1)}` : words);
}

/** What paths come to, in a sentence or a few. */
export function pathsVerdict({ paths, classes, cyclic }, write) {
  const ended = paths.filter((it) => it.stop === null);
  const those = (word) => paths.filter((it) => it.stop === word).map((it) => it.id);
  const stops = ended.length === paths.length ? "" : `Bounds for ${ended.length} of ${count(paths.length, "path")}${listed("dropped", those("none"))}${listed("not known", those("unknown"))}.`;
  const head = ended.length ? deadlinesSaid(ended) : "";
  // (a path without bounds tells no deadline)
  const due = stops && head ? `Of these: ${head[0].toLowerCase()}${head.slice(1)}` : head;
  const circle = cyclic.length ? `These depend on themselves, in a circle, or on such a class: ${cyclic.join(", ")}.` : "";
  return [stops, due, circle, ...classes.map((it) => whyNone(it, write))].filter(Boolean).join(" ");
}

/**
 * What a port of a network runs with: the values of the options, but where its line says otherwise.
 *
 * @param {string} network
 * @param {string} name
 * @param {{rate: number, mtu: number, room: number}} values
 */
export function valuesOfPort(network, name, { rate, mtu, room }) {
  const lines = [...linesOf(network)].map(({ line }) => line.split(/[ \t\r]+/).filter(Boolean));
  const words = lines.find((it) => it[0] === "port" && it[1] === name)?.slice(2) ?? [];
  const said = (word, otherwise) => (words.includes(word) ? Number(words[words.indexOf(word) + 1]) : otherwise);
  return { rate: said("rate", rate), mtu: said("mtu", mtu), room: said("room", room) };
}
