// The worker: does one job after the other, away from the page.
import { readMoments, run } from "./taprio.js";
import { recordsOf, scriptOfReplay } from "./captures.js";
import { changesOf, kindsOf, linesOf, readScript } from "./script.js";
import { byClass, droppedIn, framesOf } from "./frames.js";
import { historyOf, sentByStart } from "./why.js";
import { timesOf } from "./shades.js";
import { classicOf } from "./pcapng.js";
import { INSTEAD } from "./support.js";

let module = null;
let broken = "";

// The port's module, of octets that are packed as deflate-raw.
async function compiled(packed) {
  const octets = new Blob([packed]).stream().pipeThrough(new DecompressionStream("deflate-raw"));
  return WebAssembly.compile(await new Response(octets).arrayBuffer());
}

let latest = { text: null, octets: null }; // the text that was given last

// The octets of what a job is given: a text that was given before comes without it.
function inputOf({ text }) {
  if (text !== undefined && text !== latest.text) latest = { text, octets: new TextEncoder().encode(text) };
  return latest.octets;
}

async function answer({ octets, request }) {
  if (octets) module = await compiled(octets).catch((error) => ((broken = error.message), null));
  if (broken) throw new Error(`The port's module does not compile in this browser (${broken}). ${INSTEAD}`);
  if (!request) return { ready: true };
  const begun = performance.now();
  const own = OWN[request.job];
  const told = own ? own(request) : ofProgram(request);
  return { told: { ...told, time: performance.now() - begun } };
}

// Does a job of the program, and counts the lines of its output.
function ofProgram(request) {
  const told = run(module, { ...request, input: inputOf(request) });
  let lines = 0;
  for (let at = told.output.indexOf(10); at >= 0; at = told.output.indexOf(10, at + 1)) lines += 1;
  return { ...told, lines };
}

// What the port answers to the script that was given last, in a job.
function answersTo(job, values) {
  const { output } = run(module, { job, input: latest.octets, beside: new Uint8Array(), values });
  return new TextDecoder().decode(output);
}

// What a script, which was given before, and its answers come to, frame by frame and by class; `order` are the places of those that were sent, by their starts.
function fatesIn({ answers, values, ...request }) {
  const script = textOf(request);
  const { arrivals, commands, first, last } = readScript(script);
  const dropped = /^dropped /m.test(answers) ? droppedIn(answersTo("frames", values)) : [];
  const classes = byClass(answersTo("script", { ...values, summary: true }));
  const frames = framesOf(arrivals, answers, dropped);
  const wire = sentByStart(frames);
  const places = new Map(frames.map((it, place) => [it, place]));
  return { frames, order: Uint32Array.from(wire, (it) => places.get(it)), times: timesOf(wire), classes, changes: changesOf(commands, answers), kinds: kindsOf(commands, answers), history: historyOf(commands, answers, values), first, last };
}

// The text that is given now, or was given last.
const textOf = (request) => (inputOf(request), latest.text);

// The script that a replay of a capture comes to, and the moment of its last line.
function replayedIn(request) {
  const script = scriptOfReplay(linesOf(textOf(request)), recordsOf(request.beside));
  return { script, last: readScript(script).last };
}

// What is done beside the program's jobs.
const OWN = {
  fates: fatesIn,
  lastOf: (request) => ({ last: readScript(textOf(request)).last }),
  replayed: replayedIn,
  moments: ({ words }) => ({ moments: readMoments(module, words) }),
  classic: ({ octets }) => classicOf(octets),
};

const LOT = 20_000; // frames that are told at once

// Tells what came of a job: octets are given away, and frames come before it in lots, since the page stands still while it takes one.
function tell(id, { told, ...said }) {
  const { frames = [], ...rest } = told ?? {};
  for (let at = 0; at < frames.length; at += LOT) postMessage({ id, lot: frames.slice(at, at + LOT) });
  const given = ["output", "departures"].map((name) => rest[name]?.buffer).filter((it) => it?.byteLength);
  postMessage({ id, ...said, ...(told && { told: rest }) }, given);
}

let ended = Promise.resolve();

onmessage = ({ data }) => {
  ended = ended
    .then(() => answer(data))
    .then(
      (said) => tell(data.id, said),
      (error) => postMessage({ id: data.id, error: error.message }),
    );
};
