// The page: what is typed goes to the port, and what it answers is shown.
import { Runner, Stopped } from "./runner.js";
import { Editor } from "./editor.js";
import { BadOption, momentsIn, readingOfLines, setOptions, valuesFor, wordsOfOptions } from "./options.js";
import { base64Of, readLink, writeLink } from "./link.js";
import { explain } from "./faults.js";
import { refusedCommands } from "./commands.js";
import { Picture, shownIn, stepped } from "./picture.js";
import { Viewer } from "./viewer.js";
import { Table } from "./tables.js";
import { GREATEST, writeMoment } from "./moments.js";
import { linuxSaid } from "./linux.js";
import { readScript } from "./script.js";
import { runVerdict, sortedOf } from "./frames.js";
import { runOf, whySaid } from "./why.js";
import { timesOf } from "./shades.js";
import { boundsIn, boundsVerdict, countedFrom, drawBounds, latestOf } from "./bounds.js";
import { pathsIn, pathsVerdict, valuesOfPort } from "./paths.js";
import { countOfFrames, planVerdict, schedulesIn, valuesOfPlanned } from "./plan.js";
import { commandsIn, differencesByClass, differencesByStream, windowOfBoth, withSchedule } from "./compare.js";
import { dateOf, endOfRun, notYet, originOf, setClock, windowOf } from "./happens.js";
import { count } from "./words.js";
import { Inputs } from "./inputs.js";
import { Strip } from "./strip.js";
import { BadSchedule } from "./documents.js";
import { formOf, importedFrom, nameOfForm } from "./imports.js";
import { asItStands, linesOfDevice, passedSaid, plainOf, twoDevices } from "./pasted.js";
import { hasStreams, isNetwork, jobOf, kindOf } from "./captures.js";
import { STEPS } from "./gallery.js";
import { INSTEAD, lacking } from "./support.js";

const SHOWN = 200_000; // characters of answers that are shown
const RUNNING = "Running ..."; // what is said of a run that takes long
const EARLIER = "What stands here now has a fault. What is shown is of an earlier text.";
const STOPPED = "Stopped."; // and of one that was stopped
const LOOKING = "The frames are being looked through ...";
const OWN = "own"; // the example that is what was typed
const KEPT = "taprio"; // under which name what stands in the page is kept for a reload
const MOST_KEPT = 1_000_000; // characters that are kept so; of a longer text the kept input is opened again
const RUN_AFTER = 300; // milliseconds after a key or a change of an option until what stands in the page is run
const MOST_RUN_SO = 30_000; // characters that are run so
const MOST_CAPTURE = 1_000_000; // and octets of a capture
const KEEP_AFTER = 300; // milliseconds after a change until one's own input is kept
const MOST_PAST = 30; // texts that Ctrl+Z goes back to
const FIRST = "schedule.script"; // the example that is shown at first
const GOES_ON = 1_000_000_000n; // how long a table's script, and a replay, goes on after its last frame, in picoseconds
const REASONS_TOLD = 8; // reasons why a frame waits that are told below the picture
const REASONS_IN_TIP = 3; // and in the tip
const LONG = 500_000; // characters of answers after which the picture comes before the frames
const MOST_NEW = 500; // lines of the answers that are marked since they are new: a browser takes long to paint very many
const MOST_DRAWN = 20_000; // frames of a table that are drawn with its plan
const MOST_LINK = 8_000; // characters of a link that most places take

const at = (id) => document.getElementById(id);
const examples = JSON.parse(at("page-examples").textContent);
const octetsIn = (base64) => Uint8Array.from(atob(base64), (it) => it.charCodeAt(0));
const encoded = (text) => new TextEncoder().encode(text);
const runner = new Runner(at("page-worker").textContent, octetsIn(at("page-wasm").textContent));
// The plain lines that those of a text mean, as the options say that they are read.
const plainly = (text) => (readingOfLines().exact ? asItStands(text) : plainOf(text));
const editor = new Editor(at("editor"), (text) => takePasted(editor, text), plainly);
const beside = new Editor(at("beside-editor"), (text) => takePasted(beside, text), plainly);
const other = new Editor(at("other-editor"), (text) => takePasted(other, text), plainly); // the schedule that is compared with that of the input
const editors = [editor, beside, other];
const strip = new Strip(at("gates"), { plain: plainly, begin: (source) => noteGates(source), change: (...words) => putGates(...words), end: () => endGates(), choose: (...words) => chooseSchedule(...words) });

const inputs = new Inputs();
const past = []; // what stood in the page before another text took its place, for Ctrl+Z
const future = []; // and what was undone
let entry = {}; // the kept input that stands in the page: its id and its stamp, once it has them
let changed = false; // whether one's own input was changed since it was kept
let keepTimer = 0;
let runTimer = 0; // after which what was typed is run
let timeGiven = false; // whether the time that is shown was given by an example, for its own text
let keeping = Promise.resolve(); // the end of what is being kept
let own = null; // what was typed, while an example is shown
let ran = null; // the last run: its text, its values, and what was made of its answers
let jobShown = "script"; // the job whose text stands in the page
let exampleShown = ""; // the example whose text stands in the page, or OWN
let capture = new Uint8Array(); // the capture of a replay
let captureName = "";
let slow = 0; // the timer after which it is said that a run goes on
let turn = 0; // the number of the run whose results are wanted
let working = 0; // the number of the run of all that goes on
let drawing = false; // whether a picture is drawn for itself
let again = false; // whether it is to be drawn once more
let moving = false; // whether what is moved by hand is run
let moved = false; // and whether it was moved since
let another = true; // whether what is run next is another input than that which is shown
let beforeMove = null; // what the run before a move by hand came to
let notTaken = []; // the commands of the last run that were not taken: their lines, and what was said of them

const COMPARED = ["script", "bounds", "paths", "streams", "replay"]; // the jobs of which another schedule is run, too
const ONE_PORT = ["script", "replay", "streams"]; // the jobs whose tc lines are those of one port
const JUDGED = ["bounds", "paths"]; // the jobs that judge streams for ever, under schedules that stand alone in the text
const ALONE = ["check", "paths", "plan"]; // the jobs of which a schedule is drawn alone
const NAMES = { script: "Script", bounds: "Schedules", paths: "Schedules of the ports", plan: "Table of streams, or network", check: "Schedules", streams: "Table of streams", replay: "Script of the replay" };
const BESIDE = { streams: "Script whose lines go among the frames", bounds: "Table of streams", paths: "Network" };
const SECOND = { streams: "script", bounds: "table", paths: "network" }; // what faults call that text
const HINTS = {
  script: "Lines: clock M, frame ID PRIORITY LEN [tagged], query, count CLASS, tc qdisc .. taprio ..; moments in picoseconds.",
  bounds: "Lines: tc qdisc .. taprio ..; below: stream FIRST_ID PRIORITY LEN PERIOD OFFSET COUNT [tagged] [shortest LEN] [jitter TIME] [deadline TIME]; OFFSET may be any.",
  paths: "Lines: tc qdisc .. taprio .., one for each port, whose name is behind dev; below: link FROM TO TIME [TIME], clocks TIME, port NAME [rate MBPS] [mtu OCTETS] [room FRAMES], stream FIRST_ID PRIORITY LEN PERIOD OFFSET COUNT [..] via NAME NAME ..",
  plan: "Lines: stream FIRST_ID PRIORITY LEN PERIOD OFFSET COUNT [tagged] [shortest LEN] [jitter TIME] [deadline TIME] [via NAME NAME ..]; of a network also link, clocks and port.",
  check: "Lines: tc qdisc .. taprio ..; each is answered by the classes that it keeps apart.",
  replay: "Lines of a script, without frame: the frames are the records of the capture.",
  streams: "Lines: stream FIRST_ID PRIORITY LEN PERIOD OFFSET COUNT [tagged] [shortest LEN] [jitter TIME]; times such as 250us, and OFFSET may be any.",
};

// Says how things stand; that a run is done is said below its picture.
function say(words, done = false) {
  at("status").textContent = words;
  at("status").classList.toggle("done", done);
}

const job = () => at("form").elements.job.value;
const hasBeside = (name) => name in BESIDE;

// 1. How times are written

const origin = () => BigInt(at("origin").value || 0);
const writeTime = (time) => (at("ps").checked ? String(time) : time === 0n ? "0" : writeMoment(time));
const writeAt = (moment) => (at("ps").checked ? String(moment) : writeTime(moment - origin()));
const writeSize = (value) => (typeof value === "bigint" ? writeTime(value) : String(value));
const writeChange = (value) => (typeof value === "string" ? value : value > 0 ? `+${writeSize(value)}` : value < 0 ? `\u2212${writeSize(-value)}` : "0");

const CLASS_COLUMNS = [
  ["class", "Class", "number"], ["queued", "Queued", "number"], ["sent", "Sent", "number"], ["dropped", "Dropped", "number"], ["left", "Waiting at the end", "number"],
  ["least", "Least wait", "time"], ["mean", "Mean wait", "time"], ["greatest", "Greatest wait", "time"],
];
const WINDOW_COLUMNS = [
  ["schedule", "Schedule", "number"], ["class", "Class", "number"], ["open", "Longest open", "time"], ["closed", "Longest closed", "time"],
  ["share", "Share", "text"], ["frame", "Longest frame", "number"], ["wait", "Its longest wait", "time"],
];
const PLAN_COLUMNS = [["port", "Port", "text"], ...WINDOW_COLUMNS.slice(1)];
const BOUND_COLUMNS = [
  ["id", "Stream", "number"], ["class", "Class", "number"], ["least", "Least wait", "time"], ["greatest", "Greatest wait", "time"],
  ["first", "Earliest end", "time"], ["last", "Latest end", "time"], ["deadline", "Deadline", "time"], ["verdict", "Verdict", "text"], ["told", "", "text"],
];
const SLACK_COLUMNS = [["slack", "Jitter it may have", "measure"]];
const WHY_COLUMNS = [["gates", "By its gates", "time"], ["blocking", "Behind a lower class", "time"], ["higher", "Behind higher ones", "time"], ["queue", "In its own queue", "time"]];
const boundColumns = ({ slack, why }) => BOUND_COLUMNS.toSpliced(-1, 0, ...(slack ? SLACK_COLUMNS : []), ...(why ? WHY_COLUMNS : []));
const FRAME_COLUMNS = [
  ["id", "Frame", "number"], ["class", "Class", "number"], ["length", "Octets", "number"], ["arrival", "Arrives", "moment"], ["start", "Starts", "moment"],
  ["end", "Ends", "moment"], ["wait", "Waits", "time"], ["fate", "Fate", "text"],
];
const PATH_COLUMNS = [
  ["id", "Stream", "number"], ["first", "Earliest end", "time"], ["last", "Latest end", "time"], ["deadline", "Deadline", "time"], ["verdict", "Verdict", "text"], ["told", "", "text"],
];
const HOP_COLUMNS = [["id", "Stream", "number"], ["port", "Port", "text"], ["class", "Class", "number"], ["least", "Least wait", "time"], ["greatest", "Greatest wait", "time"]];
const PORT_COLUMNS = [
  ["port", "Port", "text"], ["class", "Class", "number"], ["apart", "Kept apart", "text"], ["most", "Most frames at once", "number"], ["room", "Room", "number"], ["verdict", "Verdict", "text"],
];
const DIFFERENCE_COLUMNS = [["of", "Of", "text"], ["what", "What", "text"], ["one", "Input's", "measure"], ["other", "Other", "measure"], ["difference", "Difference", "change"]];
const boundsTable = ({ slack, why }) => `bounds${slack ? " slack" : ""}${why ? " why" : ""}`;
const columns = (list) => list.map(([name, title, kind]) => ({ name, title, kind }));
const HOW = { time: writeTime, moment: writeAt, measure: writeTime, change: writeChange };
const tableOf = (box, list, ...keys) => new Table(at(box), columns(list), { ...HOW, keys });
const tables = {
  script: tableOf("classes", CLASS_COLUMNS, "class"),
  replay: tableOf("classes", CLASS_COLUMNS, "class"),
  streams: tableOf("classes", CLASS_COLUMNS, "class"),
  check: tableOf("classes", WINDOW_COLUMNS, "schedule", "class"),
  paths: tableOf("classes", PATH_COLUMNS, "id"),
  plan: tableOf("classes", PLAN_COLUMNS, "port", "class"),
};
const hopTable = tableOf("hops", HOP_COLUMNS, "id", "port");
const portTable = tableOf("ports", PORT_COLUMNS, "port", "class");
// What is asked of bounds says which columns they have.
for (const slack of [false, true])
  for (const why of [false, true]) tables[boundsTable({ slack, why })] = tableOf("classes", boundColumns({ slack, why }), "id");
const differenceTable = tableOf("differences", DIFFERENCE_COLUMNS);
const frameTable = new Table(at("frames-table"), columns(FRAME_COLUMNS), { ...HOW, keys: ["id"], choose: (frame) => chooseFrame(frame, true) });

// 2. The picture

const canvases = [at("canvas"), at("other-canvas")];
const moves = { want: (time) => setTime(time), whole: () => zoom("whole") };
const viewer = new Viewer(
  { box: at("frame"), canvas: at("canvas"), canvases, band: at("band"), tip: at("tip") },
  { ...moves, choose: (frame) => chooseFrame(frame, false), tell: (found) => tipOf(ran, found) },
);
const otherViewer = new Viewer(
  { box: at("other-frame"), canvas: at("other-canvas"), canvases, band: at("other-band"), tip: at("other-tip") },
  { ...moves, choose: (frame) => chooseOther(frame), tell: (found) => tipOf(ran.other, found) },
);

function line(text, title) {
  const made = document.createElement("div");
  made.textContent = text;
  if (title) made.title = title;
  return made;
}

// What is said of what lies at a place of the picture of a run.
function tipOf(run, { frame, band }) {
  if (band) return [line(`Class ${band.class} is open`), line(`about ${writeAt(band.from)} to ${writeAt(band.to)}`)];
  const head = document.createElement("strong");
  head.textContent = `Frame ${frame.id}${frame.class === null ? "" : `, class ${frame.class}`}`;
  const lines = [head, line(`${frame.length} octets, arrives ${writeAt(frame.arrival)}`)];
  if (frame.start !== null) lines.push(line(`starts ${writeAt(frame.start)}, ends ${writeAt(frame.end)}`));
  else if (frame.fate !== "left") lines.push(line(`dropped: ${frame.fate}`));
  const why = whyOf(run, frame, REASONS_IN_TIP);
  if (why) lines.push(line(why));
  else if (frame.start !== null) lines.push(line(`waits ${writeTime(frame.wait)}`));
  return lines;
}

// The frames of a run, as they are looked through for their waits.
function waitsOf(run) {
  run.waits ??= runOf(run.frames, run.history, run.port.rate, run.until !== null && run.until > run.last ? run.until : run.last, run.wire);
  return run.waits;
}

// Why a frame of a run waits, in a sentence.
function whyOf(run, frame, most) {
  if (!run.frames.includes(frame)) return "";
  return whySaid(waitsOf(run), frame, { time: writeTime, at: writeAt }, most);
}

const waitSaid = (run, frame) => whyOf(run, frame, REASONS_TOLD) || (frame.start === null ? "" : `Frame ${frame.id} does not wait.`);

// The same frame under the other schedule, or null.
const otherOf = (frame) => ran.other?.frames[ran.frames.indexOf(frame)] ?? null;

// Tells below the picture why the frame that is chosen waits, and why it does under the other schedule.
function tellWhy(frame) {
  const isThere = frame !== null && ran.frames.includes(frame);
  const its = isThere ? otherOf(frame) : null;
  const said = its && waitSaid(ran.other, its);
  at("wait-why").textContent = isThere ? waitSaid(ran, frame) + (said ? ` Under the other schedule: ${said}` : "") : "";
}

// A frame is chosen in the table or in the picture: it is shown in both, and its line of the answers.
function chooseFrame(frame, inPicture) {
  if (inPicture) viewer.find(frame);
  tellWhy(frame);
  frameTable.mark(frame);
  otherViewer.ring(otherOf(frame));
  markAnswer(frame.told);
}

// A frame is chosen in the picture of the other schedule: it is shown in all that tells of it.
function chooseOther(frame) {
  const its = ran.frames[ran.other.frames.indexOf(frame)];
  if (!its) return;
  viewer.ring(its);
  chooseFrame(its, false);
}

function markAnswer(number) {
  const text = at("answers").firstChild;
  if (!text || ran.job === "streams") return; // (there it is the script that is shown)
  const lines = text.data.split("\n");
  const begin = lines.slice(0, number - 1).reduce((sum, it) => sum + it.length + 1, 0);
  if (begin >= text.data.length) return;
  const range = document.createRange();
  range.setStart(text, begin);
  range.setEnd(text, begin + lines[number - 1].length);
  getSelection().removeAllRanges();
  getSelection().addRange(range);
  const height = parseFloat(getComputedStyle(at("answers")).lineHeight);
  at("answers").scrollTop = Math.max(0, (number - 4) * height);
}

// The frame of the line of the answers that was clicked is shown in the picture and in the table.
function findAnswered(event) {
  const { offsetNode, offset } = document.caretPositionFromPoint?.(event.clientX, event.clientY) ?? {};
  if (!ran || ran.job === "streams" || offsetNode !== at("answers").firstChild || String(getSelection()).includes("\n")) return;
  const number = offsetNode.data.slice(0, offset).split("\n").length;
  const frame = ran.frames.find((it) => it.told === number || it.taken === number);
  if (frame) {
    viewer.find(frame);
    tellWhy(frame);
    frameTable.mark(frame);
    otherViewer.ring(otherOf(frame));
  }
}

function hidePicture(why) {
  viewer.show(null);
  hideOther();
  tellWhy(null);
  at("zoom").hidden = true;
  at("save-picture").hidden = true;
  sayPicture(why);
}

// Says of the picture why there is none, or nothing.
function sayPicture(words) {
  at("picture-status").textContent = words;
  at("picture-status").classList.remove("legend");
}

// The width of a picture: what there is, between what the port takes.
const widthNow = () => Math.min(2400, Math.max(400, Math.floor(at("view").clientWidth) - 2));

// The moments from which time can count; that where things happen is chosen at first.
function fillOrigins(run) {
  const { changes, first, frames } = run;
  const wanted = originOf(run);
  const list = changes.slice(0, 20).map(({ change }, place) => [`change ${place + 1} (${writeMoment(change)})`, change]);
  list.push(["the first event" + (first ? ` (${writeMoment(first)})` : ""), first]);
  if (frames.length && frames[0].arrival !== first) list.push([`the first frame (${writeMoment(frames[0].arrival)})`, frames[0].arrival]);
  list.push(["moment 0", 0n]);
  at("origin").replaceChildren(...list.map(([text, value]) => new Option(text, value)));
  at("origin").selectedIndex = Math.max(0, list.findIndex(([, value]) => value === wanted));
}

// The place of what is chosen of the pictures: of several schedules one, and of paths all paths, and then the schedules.
const chosen = () => Number(at("which").value) || 0;
const chosenSchedule = () => ran.schedules[chosen() - (ran.job === "paths" ? 1 : 0)];

// Whether the picture is one of bars, and not of a run.
const hasBars = () => ran.job === "bounds" || (ran.job === "paths" && chosen() === 0);

// What stands below a picture: how to move in time, what it is of where there are several, and from when time counts.
function showControls(time, origin) {
  for (const part of document.querySelectorAll("#zoom [data-step], #zoom details")) part.hidden = !time;
  at("which-row").hidden = at("which").length < 2;
  at("which-name").textContent = { paths: "Picture of", plan: "Port" }[ran.job] ?? "Schedule";
  at("origin-row").hidden = !origin;
}

function showPicture({ output }, values) {
  const text = new TextDecoder().decode(output);
  const shown = shownIn(text, values);
  addressOf(at("save-picture"), output, "image/svg+xml");
  at("frame").dataset.width = values.width;
  at("zoom").hidden = false;
  showControls(true, !ALONE.includes(ran.job));
  ran.drawn = { text, shown };
  layPicture();
  performance.mark("picture");
  sayPicture("");
}

// The picture of a run, with its marks of time; null where none was drawn.
function pictureOf({ drawn, changes, frames, times, kinds }) {
  return drawn?.shown ? new Picture(drawn.text, drawn.shown, { origin: origin(), changes, frames, times, kinds }) : null;
}

// Puts what was drawn into the page: of two pictures the lower one has the legend.
function layPicture() {
  const picture = pictureOf(ran);
  if (!picture) return;
  tellWhy(viewer.frame);
  const below = ran.other && pictureOf(ran.other);
  at("frame").hidden = false;
  if (below) picture.leaveLegend();
  else picture.layLegend(at("canvas"));
  viewer.show(picture);
  layOther(below);
  const { shown } = ran.drawn;
  const words = `from ${writeAt(shown.from)} to ${writeAt(shown.to)}, counted from ${at("origin").selectedOptions[0]?.textContent ?? "moment 0"}`;
  at("frame").setAttribute("aria-label", `Picture ${words}: a row for each class with its open time, its frames and how long they wait, and one for the wire. The table of frames says the same.`);
  at("other-frame").setAttribute("aria-label", `Picture of the run under the other schedule, ${words}. The table of differences compares the two.`);
}

// What to draw: where no end is given, the picture goes to the moment that the run goes to.
async function drawValues() {
  const { port } = ran;
  const its = ran.other?.source === null ? null : ran.other; // (a port of a network is drawn alone)
  const until = ran.values.until ?? ran.until;
  const values = { ...(await valuesFor("draw", readMoments)), ...port, width: widthNow() };
  const wanted = its ? windowOfBoth(ran.window, its.window) : ran.window;
  if (wanted && values.from === null && values.to === null) Object.assign(values, wanted);
  if (values.to === null && its) values.to = endOfBoth(values.from ?? 0n);
  if (values.to === null && until !== null && until > (values.from ?? 0n)) values.to = until;
  return values;
}

async function draw(mine) {
  if (hasBars()) return showBounds();
  if (ran.source === null) return hidePicture(ran.why);
  const values = await drawValues();
  if (mine !== turn) return undefined;
  const told = await ask(mine, { job: "draw", text: ran.source, beside: new Uint8Array(), values });
  if (!told) return undefined;
  if (told.status === 0) {
    await drawOther(mine, told, values);
    return mine === turn ? showPicture(told, values) : undefined;
  }
  hidePicture(`No picture: ${told.fault.trim().replace(/^taprio_port: /, "")}.`);
  return showFault(told.fault);
}

function showBounds() {
  const streams = streamsOf(ran);
  if (!streams.length) return hidePicture("");
  const below = streamsOf(ran.other);
  const most = [streams, below].map(latestOf).reduce((a, b) => (a > b ? a : b));
  const { svg, place } = drawBounds(streams, widthNow(), writeTime, most);
  viewer.show({ svg });
  place();
  showOtherBounds(below, most);
  addressOf(at("save-picture"), encoded(standalone(svg)), "image/svg+xml");
  at("zoom").hidden = false;
  showControls(false, false);
  at("frame").setAttribute("aria-label", "Each stream from its earliest to its latest end, against its deadline. The table says the same.");
  at("picture-status").textContent = `Bars: from the earliest to the latest end of a stream's frames, counted from ${countedFrom(streams)}${ran.job === "paths" ? ", at the first port" : ""}. Line: the deadline, red where it is missed, and broken where that isn't known.`;
  at("picture-status").classList.add("legend");
  return undefined;
}

// A picture with the page's style in it, for a file.
function standalone(svg) {
  const copy = svg.cloneNode(true);
  const style = document.createElementNS("http://www.w3.org/2000/svg", "style");
  const rules = [...document.styleSheets[0].cssRules].filter((it) => it.selectorText?.includes(".canvas svg")).map((it) => it.cssText.replace(/\.canvas svg/g, "svg"));
  const root = getComputedStyle(document.documentElement);
  style.textContent = rules.join("\n").replace(/var\((--[\w-]+)\)/g, (_, name) => root.getPropertyValue(name));
  copy.prepend(style);
  copy.setAttribute("xmlns", "http://www.w3.org/2000/svg");
  return new XMLSerializer().serializeToString(copy);
}

// A picture of the page as an image.
async function imageOf(svg) {
  const address = URL.createObjectURL(new Blob([standalone(svg)], { type: "image/svg+xml" }));
  const image = new Image();
  image.src = address;
  await image.decode();
  URL.revokeObjectURL(address);
  return image;
}

// Saves what is shown as a bitmap, at twice its size: of two pictures one below the other.
async function savePng() {
  const images = await Promise.all(canvases.map((it) => it.querySelector("svg")).filter(Boolean).map(imageOf));
  if (!images.length) return;
  const canvas = document.createElement("canvas");
  canvas.width = 2 * Math.max(...images.map((it) => it.width));
  canvas.height = 2 * images.reduce((sum, it) => sum + it.height, 0);
  const context = canvas.getContext("2d");
  context.fillStyle = getComputedStyle(document.body).backgroundColor;
  context.fillRect(0, 0, canvas.width, canvas.height);
  let top = 0;
  for (const image of images) {
    context.drawImage(image, 0, top, 2 * image.width, 2 * image.height);
    top += 2 * image.height;
  }
  const link = document.createElement("a");
  link.href = canvas.toDataURL("image/png");
  link.download = "run.png";
  link.click();
}

function setTime({ from, to }) {
  timeGiven = false;
  at("from").value = writeMoment(from);
  at("to").value = writeMoment(to);
  return runPicture();
}

function zoom(step) {
  if (step !== "whole") return ran?.drawn?.shown && setTime(stepped(ran.drawn.shown, step));
  at("from").value = "";
  at("to").value = "";
  return runPicture();
}

// 3. The answers

// Octets as a picture or a file, by an address that is given back when the next takes its place.
function addressOf(link, content, type) {
  if (link.href) URL.revokeObjectURL(link.href);
  link.href = URL.createObjectURL(new Blob([content], { type }));
  link.hidden = false;
  return link.href;
}

function showAnswers(name, output, text) {
  const end = text.length > SHOWN ? text.lastIndexOf("\n", SHOWN) + 1 : text.length;
  at("answers").textContent = text.slice(0, end);
  markNewLines();
  at("cut").hidden = end === text.length;
  at("cut").textContent = `The first ${end.toLocaleString("en")} of ${text.length.toLocaleString("en")} characters are shown; saved are all.`;
  addressOf(at("save-answers"), output, "text/plain");
  at("save-answers").download = { streams: "traffic.script", plan: "plan.schedules" }[name] ?? "answers.txt";
  at("take").hidden = name === "plan" ? !ran.schedules.length : name !== "streams" || text === "";
  at("take").textContent = name === "plan" ? "Open it with its streams" : "Open it as a script";
}

// Lists the schedule commands that weren't taken, each as a button to its line.
function showRefused(name, text, answers) {
  // (a port of a network that refuses its schedule ends the run, and the answers are not in the order of the commands)
  const refused = ["streams", "paths", "plan"].includes(name) ? [] : refusedCommands(text, answers);
  const items = refused.map(({ line: number, answer }) => {
    const button = document.createElement("button");
    button.type = "button";
    button.textContent = `Line ${number}: ${answer}`;
    button.addEventListener("click", () => editor.goTo(number));
    const item = document.createElement("li");
    item.append(button);
    return item;
  });
  notTaken = refused.map(({ line: number, answer }) => ({ line: number, said: answer }));
  underlineText();
  at("refused-list").replaceChildren(...items);
  at("refused").hidden = items.length === 0;
}

const WINDOW = /^window class (\d) open (\w+) closed (\d+) share (\d+) of (\d+) frame (\w+) wait (\w+)$/;

// The windows that a check tells of, each with the number of its schedule.
function windowsIn(answers) {
  let schedule = 0;
  const found = [];
  for (const text of answers.split("\n")) {
    if (/^(?:apart|refused|tc-fault)\b/.test(text)) schedule += 1;
    const it = WINDOW.exec(text);
    if (!it) continue;
    const [, kind, open, closed, part, whole, frame, wait] = it;
    const percent = `${(Number((BigInt(part) * 100000n) / BigInt(whole)) / 1000).toFixed(2)} %`;
    found.push({ schedule, class: Number(kind), open: open === "always" ? open : BigInt(open), closed: BigInt(closed), share: percent, frame, wait: wait === "none" ? wait : BigInt(wait) });
  }
  return found;
}

// The rows of the table of numbers that a run comes to.
const numbersOf = (run) => (["check", "plan"].includes(run.job) ? run.windows : JUDGED.includes(run.job) ? run.paths?.paths ?? run.bounds[chosen()]?.streams ?? [] : run.classes);

function showTables() {
  const rows = numbersOf(ran);
  for (const name of ["results-name", "numbers"]) at(name).hidden = !rows.length && !ran.frames.length;
  at("classes").hidden = !rows.length;
  at("save-table").hidden = !rows.length;
  let changed = 0;
  if (rows.length) {
    const table = tables[ran.job === "bounds" ? boundsTable(ran.values) : ran.job];
    changed += table.show(rows, ran.since && numbersOf(ran.since));
    addressOf(at("save-table"), encoded(table.csv), "text/csv");
  }
  changed += showHops();
  sayChanged(changed);
  showDifferences();
  at("frames-box").hidden = !ran.frames.length;
  at("frames-name").textContent = `Frames (${ran.frames.length.toLocaleString("en")})`;
  if (at("frames-box").open) showFrames();
}

// The waits at the ports of a network, and their classes; how many values are marked.
function showHops() {
  at("hops-box").hidden = !ran.paths?.classes.length;
  if (at("hops-box").hidden) return 0;
  let changed = 0;
  for (const [name, table, rows] of [["hops", hopTable, "hops"], ["ports", portTable, "classes"]]) {
    changed += table.show(ran.paths[rows], ran.since?.paths && ran.since.paths[rows]);
    addressOf(at(`save-${name}`), encoded(table.csv), "text/csv");
  }
  return changed;
}

function showFrames() {
  if (!ran) return;
  frameTable.show(ran.frames, ran.since?.frames);
}

// Says how many numbers are others than before the last change, where what is shown is compared with that.
function sayChanged(changed) {
  at("changed").textContent = !ran.since || !ran.isWhole ? "" : changed ? `Marked: ${count(changed, "value")} that the last change altered.` : "The last change altered none of these numbers.";
}

// Marks the lines of the answers that were not there before the last change, unless they are very many.
function markNewLines() {
  if (!CSS.highlights) return; // (the tables are marked all the same)
  CSS.highlights.delete("changed");
  const text = at("answers").firstChild;
  if (!ran.since || !text) return;
  const earlier = new Set(ran.since.answers.split("\n"));
  const ranges = [];
  let begin = 0;
  for (const line of text.data.split("\n")) {
    if (!earlier.has(line)) ranges.push(new StaticRange({ startContainer: text, startOffset: begin, endContainer: text, endOffset: begin + line.length }));
    begin += line.length + 1;
  }
  if (ranges.length <= MOST_NEW) CSS.highlights.set("changed", new Highlight(...ranges));
}

// Saves the port's own table of the frames of the script that was run; of a table of streams with the stream of each frame.
async function saveFrames() {
  const { job: name, source, text, values, until } = ran;
  const table = encoded(name === "streams" ? text : "");
  const told = await runner.run({ job: "frames", text: source, beside: table, values: { ...values, until } });
  if (told.status !== 0) {
    showFault(told.fault);
    return;
  }
  const link = document.createElement("a");
  link.href = URL.createObjectURL(new Blob([told.output], { type: "text/csv" }));
  link.download = "frames.csv";
  link.click();
  setTimeout(() => URL.revokeObjectURL(link.href), 60_000);
}

// Underlines what was not taken of the text, if that is what was run, and a fault of it.
function underlineText(...faults) {
  editor.underline([...(ran?.typed === editor.text ? notTaken : []), ...faults]);
}

function clearFault() {
  at("fault").hidden = true;
  for (const part of [editor, beside]) part.markLine(null);
  underlineText();
  beside.underline([]);
  for (const input of document.querySelectorAll(".options [aria-invalid], #zoom [aria-invalid]")) input.removeAttribute("aria-invalid");
}

// The editor that has the lines of which a fault tells.
const editorOf = (source) => (hasBeside(job()) && source === SECOND[job()] ? beside : editor);

function showFault(text, input = null) {
  const { text: words, line: number, source, said } = explain(text);
  const second = number !== null && editorOf(source) === beside ? { streams: "Script: ", bounds: "Table: ", paths: "Network: " }[job()] : "";
  at("fault-text").textContent = `${second}${words}`;
  at("fault-hint").textContent = number === null ? "" : HINTS[job()];
  const field = at(input ?? /--(\w+)/.exec(words)?.[1] ?? "");
  if (field?.matches("input, select")) field.setAttribute("aria-invalid", "true");
  const folded = field?.closest("details");
  if (folded) folded.open = true;
  if (number !== null) {
    editorOf(source).markLine(number);
    if (editorOf(source) === editor) underlineText({ line: number, said });
    else beside.underline([{ line: number, said }]);
  }
  at("go").hidden = number === null && !field;
  at("fault").classList.remove("stale");
  at("go").textContent = !field ? "Go to the line" : input === "capture" ? "Go to the capture" : "Go to the option";
  at("go").onclick = () => (field ? field.focus() : editorOf(source).goTo(number));
  at("fault").hidden = false;
}

function sayStatus({ status, lines, time }) {
  const names = { 0: "Done", 1: "None is found", 2: "A value is refused", 3: "The input has a fault", 4: "Out of memory" };
  clearTimeout(slow);
  const after = status === 3 ? " before it" : "";
  ran.said = `${names[status]}: ${count(lines, "line")}${after}, in ${time.toFixed(time < 10 ? 1 : 0)} ms (status ${status}).`;
  say(ran.said, status === 0);
}

// Whether a job has done what it does: a plan, too, that finds nothing.
const isAnswered = ({ status }) => status === 0 || status === 1;

// What a check comes to: the classes that its one schedule keeps apart, or how many there are.
function checkVerdict(answers) {
  const told = answers.match(/^(?:apart|refused|tc-fault)\b.*$/gm) ?? [];
  const refused = told.filter((it) => !it.startsWith("apart")).length;
  if (!told.length) return "No schedule stands there: a line tc qdisc replace .. taprio .. gives one.";
  if (ran.schedules.length !== 1 || refused) return `${count(ran.schedules.length, "schedule")} accepted${refused ? `, ${count(refused, "command")} not taken` : ""}.`;
  const apart = ran.schedules[0].told.replace(/^apart /, "");
  return `Kept apart: ${apart === "none" ? "no class" : `class ${apart.replace(/ /g, ", ")}`}.`;
}

// What bounds come to, or what lacks for them.
function boundsSaid() {
  const it = ran.bounds[chosen()];
  if (!it) return "No schedule stands there: a line tc qdisc replace .. taprio .. gives one.";
  if (!it.apart.startsWith("apart")) return "The schedule is not taken.";
  return it.streams.length ? boundsVerdict(it, writeTime) : "The table has no stream.";
}

// What paths come to, or what lacks for them.
const pathsSaid = () => (ran.paths.paths.length ? pathsVerdict(ran.paths, writeTime) : "The network has no stream.");

// What a run comes to; of frames that wait since nothing goes on after them, what makes it go on.
function runSaid() {
  const ends = ran.job === "script" && ran.values.until === null && ran.frames.some((it) => it.fate === "left") && ran.last <= ran.frames.at(-1).arrival;
  return `${runVerdict(ran.frames, writeTime)}${ends ? " The run ends when the last frame comes: a line clock MOMENT after it, or the option Run on until, goes on." : ""}`;
}

function streamsSaid(answers) {
  if (ran.source === null) return `A script of ${count((answers.match(/^frame /gm) ?? []).length, "frame")}, with a fault.`;
  return ran.frames.length ? `As a script, run to 1 ms after its end: ${runVerdict(ran.frames, writeTime)}` : "The table has no frame.";
}

// What is said of a schedule that a run ends before.
function laterOf(run) {
  const moment = ["script", "replay", "streams"].includes(run.job) ? notYet(run) : null;
  if (moment === null) return "";
  const date = dateOf(moment);
  return ` No schedule is in force yet: it comes into force at ${writeMoment(moment)}${date ? `, ${date} if counted from 1970` : ""}, and the run ends at ${writeMoment(endOfRun(run))}. Until then every gate is open.`;
}

// The same of the run of the input, with a button that sets the clock of a script there.
function laterSaid() {
  const said = laterOf(ran);
  at("set-clock").hidden = !said || ran.job !== "script";
  return said;
}

function sayVerdict(answers) {
  const said = { script: runSaid, replay: runSaid, streams: () => streamsSaid(answers), bounds: boundsSaid, paths: pathsSaid, plan: () => planVerdict(ran.text, answers), check: () => checkVerdict(answers) }[ran.job]();
  const later = laterSaid();
  const change = ran.changes.length && !later && ["script", "replay"].includes(ran.job) ? ` In force from ${writeMoment(ran.changes[0].change)}.` : "";
  at("verdict").textContent = said + later + (ran.frames.length ? "" : change);
  at("linux").textContent = ran.job === "check" ? linuxSaid(ran.text) : "";
}

function clearVerdict(words = "") {
  at("verdict").textContent = words;
  at("linux").textContent = "";
  at("set-clock").hidden = true;
}

// Sets the clock of the script to the moment at which its schedule comes into force, and what comes after that as much later.
async function setClockThere() {
  const moment = notYet(ran);
  notePast();
  const { text, shift } = setClock(editor.text, moment, plainly(editor.text).text);
  const [until] = await momentsIn(["until"], readMoments).catch(() => [null]);
  editor.text = text;
  if (until !== null && until + shift <= GREATEST) at("until").value = writeMoment(until + shift);
  forgetTime();
  becomeOwn();
  await runAll();
}

// 4. A run

function running(is) {
  at("stop").disabled = !is;
  document.querySelector("main").setAttribute("aria-busy", String(is));
}

// The port's reader of moments.
const readMoments = async (words) => (await runner.run({ job: "moments", words })).moments;

// The lines of a text with tc lines as the options say that they are read, and what is said of what was passed over. (Those of a network are of all
// its devices.)
function readLines(text, isOnePort) {
  const device = job() === "paths" ? null : readingOfLines().device;
  const plain = plainly(text);
  const { text: lines, others } = device === null ? { text: plain.text, others: null } : linesOfDevice(plain.text, device);
  const [one, its] = (isOnePort && twoDevices(lines)) || [];
  const devices = its ? `Line ${its.number} is of device ${its.device}, line ${one.number} of ${one.device}: one port answers all lines. Device, in the options, takes those of one.` : "";
  return { lines, said: [passedSaid(plain.passed, others), devices].filter(Boolean).join(" ") };
}

// What is run of the fields, of which one or two have tc lines; and what is said of these.
function readFields(name) {
  const typed = { text: editor.text, beside: hasBeside(name) ? beside.text : "", other: COMPARED.includes(name) ? other.text.trimEnd() : "" };
  const read = { ...typed };
  const said = [];
  for (const part of name === "plan" ? [] : [name === "streams" ? "beside" : "text", "other"]) {
    const found = readLines(typed[part], part !== "other" && ONE_PORT.includes(name));
    read[part] = found.lines;
    if (found.said) said.push(part === "other" ? `Of the other schedule: ${found.said}` : found.said);
  }
  return { read, said: said.join(" ") };
}

// Says what was passed over in tc lines, and of which devices they are.
function sayPassed(words) {
  at("passed").hidden = !words;
  at("passed").textContent = words;
}

// What is run: the text and the values as they stand now.
async function snapshot() {
  const name = job();
  const typed = editor.text;
  const { read, said } = readFields(name);
  const { text } = read;
  const second = name === "replay" ? capture : encoded(read.beside);
  const values = await valuesFor(name, readMoments);
  if (name === "replay" && !second.length) throw new BadOption("capture", "No capture is chosen: choose a pcap or pcapng file, or drop one on the page.");
  const { rate, mtu, room } = values;
  return { job: name, typed, text, passed: said, beside: second, besideText: hasBeside(name) ? read.beside : beside.text, otherText: read.other, other: null, values, port: { rate, mtu, room }, until: null, frames: [], wire: [], times: timesOf([]), classes: [], changes: [], history: null, kinds: null, first: 0n, last: 0n, windows: [], bounds: [], paths: null, schedules: [], source: null, why: "", drawn: null, window: null, waits: null, since: null, isWhole: false };
}

// What a run came to, as far as the next one is compared with it.
const gistOf = ({ job: name, values, classes, windows, bounds, paths, frames, answers }) => ({ job: name, values, classes, windows, bounds, paths, frames, answers });

// What a run is compared with: the run before the last change of the same input, where that is short; and before the whole of a move by hand.
function sinceOf(before, next) {
  if (another || !before || before.job !== next.job || !isShort()) return null;
  if (beforeMove) return beforeMove;
  // (a run with a fault tells no numbers)
  if (!before.isWhole) return before.since;
  return isSame(before, next) && before.otherText === next.otherText ? before.since : gistOf(before);
}

// Does a job for a run, and null where another run has begun since.
async function ask(mine, request) {
  const told = await runner.run(request);
  return mine === turn ? told : null;
}

// What a script and its answers come to.
async function takeRun(mine, run, script, until, answers) {
  const told = await ask(mine, { job: "fates", text: script, answers, values: { ...run.values, until } });
  if (told) Object.assign(run, { frames: told.frames, wire: Array.from(told.order, (place) => told.frames[place]), times: told.times, classes: told.classes, changes: told.changes, history: told.history, kinds: told.kinds, first: told.first, last: told.last, source: script, until, waits: null });
  if (told && ["script", "replay"].includes(run.job)) run.window = windowOf(run);
}

// A plan for the streams of a table with these: each frame comes at its earliest. Offsets count from moment 0.
async function takePlanned(mine, schedule) {
  const told = await ask(mine, { job: "streams", text: ran.text, beside: encoded(schedule), values: ran.values });
  if (told) await takeScript(mine, ran, new TextDecoder().decode(told.output));
}

// Whether the frames of a plan's streams are drawn with it: those of a network come through other ports, and not all of very many are.
const hasFrames = () => ran.job === "plan" && !isNetwork(ran.text) && !ran.values.base && countOfFrames(ran.text) <= MOST_DRAWN;

// The schedule that is chosen of a check, of a network's ports or of a plan: two of its cycles are drawn, from its change on.
async function takeSchedule(mine) {
  const { number, name, line: text } = chosenSchedule() ?? {};
  if (number === undefined) return;
  if (ran.job === "paths") ran.port = valuesOfPort(ran.besideText, name, ran.values);
  if (ran.job === "plan") ran.port = valuesOfPlanned(ran.text, name, ran.values);
  if (hasFrames()) await takePlanned(mine, `${text}\n`);
  else await takeAlone(mine, `${text}\n`);
  const [it] = ran.changes;
  if (!it || it.cycle === null) {
    ran.source = null;
    ran.why = "No picture: the schedule is not taken by a new port.";
    return;
  }
  ran.window = { from: it.change, to: it.change + 2n * it.cycle };
}

// A schedule without any frame.
async function takeAlone(mine, schedule) {
  const told = await ask(mine, { job: "script", text: schedule, beside: new Uint8Array(), values: { ...ran.values, ...ran.port, until: null, summary: false } });
  if (told) await takeRun(mine, ran, schedule, null, new TextDecoder().decode(told.output));
}

// The script that a table of streams became is run, too: it is what its picture shows.
async function takeScript(mine, run, script) {
  const read = await ask(mine, { job: "lastOf", text: script });
  if (!read) return;
  const until = read.last + GOES_ON;
  const values = { ...run.values, until: until < GREATEST ? until : GREATEST };
  const told = await ask(mine, { job: "script", text: script, beside: new Uint8Array(), values });
  if (!told) return;
  if (told.status === 0) {
    run.told = new TextDecoder().decode(told.output);
    await takeRun(mine, run, script, values.until, run.told);
    const to = run.frames.reduce((last, it) => (it.end !== null && it.end > last ? it.end : last), run.last);
    if (to > 0n) run.window = { from: 0n, to };
  } else run.why = `No picture: the script that is made has a fault. ${explain(told.fault).text} Open it as a script to mend it.`;
}

// A replay is drawn as the script that it comes to. Where no end is given it goes on until no frame can start, which is at the last end.
async function takeReplay(mine, run, answers) {
  const told = await ask(mine, { job: "replayed", text: run.text, beside: run.beside });
  if (!told) return;
  // (frames start one after another: the last one that starts is the last one that ends)
  const [, end] = /^start .* end (\d+)/.exec(answers.slice(answers.lastIndexOf("\nstart ") + 1)) ?? [];
  const last = end !== undefined && BigInt(end) > told.last ? BigInt(end) : told.last;
  await takeRun(mine, run, told.script, run.values.until ?? last, answers);
}

// What the answers of a run come to: `told` are those to its schedule commands.
async function takeAnswers(mine, run, answers) {
  const name = run.job;
  run.told = answers;
  if (name === "script") await takeRun(mine, run, run.text, run.values.until, answers);
  else if (name === "replay") await takeReplay(mine, run, answers);
  else if (name === "streams") await takeScript(mine, run, answers);
  else if (name === "bounds") run.bounds = boundsIn(answers);
  else if (name === "paths") takePaths(run, answers);
  else if (name === "plan") await takePlan(mine, answers);
  else if (name === "check") await takeCheck(mine, answers);
}

// What paths tell, and the schedules of the ports by their names.
function takePaths(run, answers) {
  run.paths = pathsIn(answers);
  run.schedules = schedulesIn(run.text);
}

// The schedules of a plan, and the windows of each port.
async function takePlan(mine, answers) {
  ran.schedules = schedulesIn(answers);
  for (const { name, line: text } of ran.schedules) {
    const told = await checkWindows(mine, `${text}\n`, { ...ran.values, ...valuesOfPlanned(ran.text, name, ran.values) });
    if (!told) return;
    ran.windows.push(...windowsIn(new TextDecoder().decode(told.output)).map((it) => ({ ...it, port: name })));
  }
}

async function takeCheck(mine, answers) {
  const told = ran.values.windows ? null : await checkWindows(mine, ran.text);
  ran.windows = windowsIn(told ? new TextDecoder().decode(told.output) : answers);
  const tells = answers.match(/^(?:apart|refused|tc-fault)\b.*$/gm) ?? [];
  ran.schedules = readScript(ran.text).commands.map(({ line: number, words }, place) => ({ number, name: `${place + 1} (line ${number})`, line: words.join(" "), told: tells[place] })).filter((it) => /^apart/.test(it.told ?? "") && it.line.includes("sched-entry"));
}

// What a check tells of schedules, with their windows.
const checkWindows = (mine, text, values = ran.values) => ask(mine, { job: "check", text, beside: new Uint8Array(), values: { ...values, windows: true } });

// What the answers of what stands in the page come to, and which of its schedules is shown.
async function takeOwn(mine, answers) {
  await takeAnswers(mine, ran, answers);
  const schedules = ran.schedules.map((it) => it.name);
  fillWhich({ bounds: ran.bounds.map((_, place) => String(place + 1)), paths: ["all paths", ...schedules] }[ran.job] ?? schedules);
  if (ALONE.includes(ran.job)) await takeSchedule(mine);
}

function fillWhich(names) {
  const before = chosen();
  at("which").replaceChildren(...names.map((name, place) => new Option(name, String(place))));
  at("which").value = String(before < names.length ? before : 0);
}

// Whether what is shown stays where what was typed has a fault: unless it is of two runs, of which the newer one was stopped before its picture came.
const staysShown = (typed) => typed && ran !== null && !viewer.isHeld;

async function work(mine, typed) {
  const next = await snapshot();
  if (mine !== turn) return;
  const told = await ask(mine, { job: next.job, text: next.text, beside: next.beside, values: next.values });
  if (!told) return;
  clearFault();
  sayPassed(next.passed);
  if (staysShown(typed) && !isAnswered(told)) {
    keepEarlier();
    showFault(told.fault);
    return;
  }
  const before = ran;
  ran = next;
  viewer.hold();
  otherViewer.hold();
  tellWhy(null);
  const answers = new TextDecoder().decode(told.output);
  ran.answers = answers;
  // (of a long script the picture is drawn first, and its frames are found then)
  const late = ran.job === "script" && told.status === 0 && answers.length > LONG;
  ran.since = late ? null : sinceOf(before, next);
  ran.isWhole = isAnswered(told);
  another = false;
  if (late) ran.source = ran.text;
  else if (isAnswered(told)) {
    await takeOwn(mine, answers);
    if (mine === turn) await takeOther(mine, typed ? before : null);
  }
  if (!(await showRun(mine, told, answers, late))) return;
  if (!isAnswered(told)) {
    showFault(told.fault);
    hidePicture(["script", "replay", "check"].includes(ran.job) ? "No picture: the run has a fault." : "");
    return;
  }
  await draw(mine);
  if (late && mine === turn) await takeLate(mine, answers, typed ? before : null);
}

// Does steps one after another; where the answers are long with a pause before each, so that a key waits for one of them alone. False where another run
// has begun since.
async function inSteps(mine, ...steps) {
  for (const step of steps) {
    if (mine === turn && ran.answers.length > LONG) await new Promise((resolve) => setTimeout(resolve));
    if (mine !== turn) return false;
    step();
  }
  return true;
}

// Shows what a run came to, but for its picture.
function showRun(mine, told, answers, late) {
  return inSteps(
    mine,
    () => {
      fillOrigins(ran);
      at("results").hidden = false;
      setStale(false);
    },
    () => showAnswers(ran.job, told.output, answers),
    () => showRefused(ran.job, ran.text, answers),
    () => {
      showTables();
      at("save-departures").hidden = true;
      if (ran.job === "replay") addressOf(at("save-departures"), told.departures, "application/vnd.tcpdump.pcap");
    },
    () => {
      sayStatus(told);
      clearVerdict(late ? LOOKING : "");
      if (!late && isAnswered(told)) sayVerdict(answers);
    },
    () => sortedOf(ran.frames), // (the picture looks them up there)
  );
}

// The frames of a long script, when its picture stands already.
async function takeLate(mine, answers, before) {
  await takeOwn(mine, answers);
  if (mine === turn) await takeOther(mine, before);
  if (!(await inSteps(mine, () => fillOrigins(ran), () => showTables(), () => sayVerdict(answers), () => sortedOf(ran.frames)))) return;
  if (ran.window || ran.other) await draw(mine);
  else if (ran.drawn) await inSteps(mine, layPicture);
}

// What was typed has a fault: what is shown is still of an earlier text, and is marked as such.
function keepEarlier() {
  setStale(true, "");
  say(EARLIER);
}

// Says why a run came to nothing. Of one that began by itself what is shown stays.
function showError(error, typed) {
  if (staysShown(typed) && !(error instanceof Stopped)) {
    clearFault();
    keepEarlier();
    showFault(error.message, error.field ?? null);
    return;
  }
  if (error instanceof Stopped) {
    say(STOPPED);
    if (viewer.isHeld) hidePicture("");
    if (at("verdict").textContent === LOOKING) at("verdict").textContent = "The frames were not looked through.";
  } else if (error instanceof BadOption) {
    say("A value is refused (status 2).");
    // (nothing is told of what stands here: what is shown would be of another run)
    clearVerdict();
    if (working) hidePicture("");
    at("refused").hidden = true;
    at("results").hidden = true;
    showFault(error.message, error.field);
  } else {
    say("It could not be run.");
    hidePicture("");
    showFault(error.message);
  }
}

// Begins a run of all or of the picture alone; one that still goes on is stopped.
async function begin(what, typed = false) {
  const mine = ++turn;
  clearTimeout(slow);
  if (!at("stop").disabled) runner.stop();
  running(true);
  const before = [at("status").textContent, at("status").classList.contains("done")];
  slow = setTimeout(() => (say(RUNNING)), 300);
  try {
    await what(mine, typed);
  } catch (error) {
    if (mine === turn) showError(error, typed);
  } finally {
    if (mine === turn) {
      clearTimeout(slow);
      if (at("status").textContent === RUNNING) say(...before);
      running(false);
    }
  }
}

// Begins a run of what stands in the page. What is shown is of another one until its answers come, and stays as high as it is.
async function runAll(typed = false) {
  clearTimeout(runTimer);
  showGates();
  if (!typed) {
    keep();
    clearFault();
  }
  setStale(true, "");
  const mine = turn + 1;
  working = mine;
  await begin(work, typed);
  if (working === mine) working = 0;
}

// Whether what stands in the page is so short that it is run while it is typed.
const isShort = () => editor.text.length + other.text.length + (hasBeside(job()) ? beside.text.length : 0) <= MOST_RUN_SO && (job() !== "replay" || capture.length <= MOST_CAPTURE);

// What stands in the page was changed: it is run after a moment without another change, where it is short.
function runSoon() {
  clearTimeout(runTimer);
  if (!document.body.classList.contains("moving")) beforeMove = null;
  showGates();
  if (isShort()) {
    setStale(true, "");
    runTimer = setTimeout(() => runAll(true), RUN_AFTER);
  } else setStale(true);
}

// Draws anew what was run; of wishes that come while it draws the last is drawn next, and none while all is run.
async function runPicture() {
  if (!ran || ran.source === null && !hasBars() || working) return;
  again = drawing;
  if (drawing) return;
  drawing = true;
  // (a fault of what stands here now stays, though an earlier picture is drawn anew)
  if (!at("view").classList.contains("stale")) clearFault();
  if (at("status").textContent === STOPPED) say(ran.said, true);
  await begin(draw);
  drawing = false;
  if (again) await runPicture();
}

// 5. The other schedule

// The streams of bounds that are shown, or all paths; none where there are neither.
const streamsOf = (run) => run?.paths?.paths ?? run?.bounds[run === ran ? chosen() : 0]?.streams ?? [];

// The end of the longer one of two runs; null where that is not after a moment.
function endOfBoth(from) {
  const [one, its] = [ran, ran.other].map(endOfRun);
  const end = one > its ? one : its;
  return end > from ? end : null;
}

// Says beside its field what is wrong with the other schedule, or nothing; its line is marked where there is one.
function sayOther(words, line = null) {
  at("other-fault").hidden = !words;
  at("other-fault").textContent = words;
  other.markLine(line);
  other.underline(line === null ? [] : [{ line, said: words.replace(/^Line \d+: /, "") }]);
}

// Whether two runs are of one input: then what stood beside the first can stand beside the second.
const isSame = (one, its) =>
  ["job", "text", "besideText"].every((name) => one[name] === its[name]) && (one.job !== "replay" || one.beside === its.beside) && Object.keys(one.values).every((name) => one.values[name] === its.values[name]);

// The other schedule can't be run: what is shown of an earlier one stays, where it is of the same input.
function refuseOther(words, line, before) {
  const stays = before?.other && isSame(before, ran);
  if (stays) ran.other = before.other;
  for (const name of ["other-view", "differences-box"]) at(name).classList.toggle("stale", Boolean(stays));
  sayOther(stays ? `${words} What is shown is of an earlier schedule.` : words, line);
}

// What stands in the page, with the other schedule in the place of its own.
function inputOfOther(words) {
  const { job: name, text, besideText, beside: second } = ran;
  if (name === "streams") return { text, beside: encoded(withSchedule(besideText, words)) };
  return { text: JUDGED.includes(name) ? words : withSchedule(text, words), beside: second };
}

// Runs what stands in the page under the other schedule, where one is given.
async function takeOther(mine, before) {
  sayOther("");
  for (const name of ["other-view", "differences-box"]) at(name).classList.remove("stale");
  const words = ran.otherText;
  if (!words.trim()) return;
  const checked = await checkWindows(mine, words);
  if (!checked) return;
  const fault = checked.status === 0 ? null : explain(checked.fault);
  if (fault) refuseOther(fault.text, fault.line, before);
  else if (!commandsIn(words).length) refuseOther("No schedule stands there: a line tc qdisc replace .. taprio .. gives one.", null, before);
  else await runOther(mine, words, windowsIn(new TextDecoder().decode(checked.output)), before);
}

async function runOther(mine, words, windows, before) {
  const run = { ...ran, ...inputOfOther(words), source: null, drawn: null };
  const told = await ask(mine, { job: run.job, text: run.text, beside: run.beside, values: run.values });
  if (!told) return;
  run.answers = new TextDecoder().decode(told.output);
  if (told.status === 0) await takeAnswers(mine, run, run.answers);
  if (mine !== turn) return;
  const [refused] = refusedCommands(words, run.told);
  const fault = told.status === 0 ? null : explain(told.fault);
  if (fault) refuseOther(fault.text, fault.source === "schedules" ? fault.line : null, before);
  else if (refused) refuseOther(`Line ${refused.line}: ${refused.answer}.`, refused.line, before);
  else ran.other = { ...run, windows };
  if (ran.other) await takeOwnWindows(mine);
}

// The windows of the input's schedules.
async function takeOwnWindows(mine) {
  const commands = commandsIn(ran.job === "streams" ? ran.besideText : ran.text);
  const told = await checkWindows(mine, `${commands.join("\n")}\n`);
  if (told?.status === 0) ran.windows = windowsIn(new TextDecoder().decode(told.output));
}

// What the run under the other schedule comes to.
function otherSaid(its) {
  if (its.job === "paths") return pathsVerdict(its.paths, writeTime);
  return its.job === "bounds" ? boundsVerdict(its.bounds[0], writeTime) : runVerdict(its.frames, writeTime) + laterOf(its);
}

function showDifferences() {
  const its = ran.other;
  at("differences-box").hidden = !its;
  if (!its) return;
  differenceTable.show(JUDGED.includes(ran.job) ? differencesByStream(streamsOf(ran), streamsOf(its)) : differencesByClass(ran, its));
  addressOf(at("save-differences"), encoded(differenceTable.csv), "text/csv");
  addressOf(at("save-other-answers"), encoded(its.answers), "text/plain");
  at("other-verdict").textContent = otherSaid(its);
}

// Draws the same time of the run under the other schedule.
async function drawOther(mine, { output }, values) {
  const its = ran.other;
  if (!its) return;
  const shown = its.source === null ? null : shownIn(new TextDecoder().decode(output), values);
  const told = shown && (await ask(mine, { job: "draw", text: its.source, beside: new Uint8Array(), values: { ...values, ...shown } }));
  if (mine !== turn) return;
  its.drawn = told?.status === 0 ? { text: new TextDecoder().decode(told.output), shown } : null;
  if (its.drawn) addressOf(at("save-other-picture"), told.output, "image/svg+xml");
}

function layOther(picture) {
  for (const name of ["frame-name", "other-view"]) at(name).hidden = !picture;
  if (picture) {
    at("other-frame").hidden = false;
    picture.layLegend(at("other-canvas"));
  } else at("save-other-picture").hidden = true;
  otherViewer.show(picture);
}

function showOtherBounds(streams, most) {
  if (!streams.length) return hideOther();
  const { svg, place } = drawBounds(streams, widthNow(), writeTime, most);
  for (const name of ["frame-name", "other-view"]) at(name).hidden = false;
  otherViewer.show({ svg });
  place();
  return addressOf(at("save-other-picture"), encoded(standalone(svg)), "image/svg+xml");
}

const hideOther = () => layOther(null);

// Shows the field of the other schedule or the button that opens it, where the job has one.
function showOtherField(open) {
  const has = COMPARED.includes(jobShown);
  at("other-field").hidden = !has || !open;
  at("compare").hidden = !has || open;
  showGates();
}

function openCompare() {
  showOtherField(true);
  other.area.focus();
}

// Puts another text into the field of the other schedule: Ctrl+Z brings back what stood there.
function putOther(text) {
  notePast();
  other.text = text;
  becomeOwn();
}

function copySchedule() {
  putOther(commandsIn(plainly(scheduleEditor().text).text).map((it) => `${it.trim().replace(/[ \t\r]+/g, " ")}\n`).join(""));
  other.area.focus();
}

function endCompare() {
  if (other.text) putOther("");
  showOtherField(false);
  at("compare").focus();
}

// 6. The gates by hand

// The editor whose text has the schedules.
const scheduleEditor = () => (job() === "streams" ? beside : editor);

// The editors whose gates are changed by hand: that one, and that of the other schedule where it is open.
const gateEditors = () => (at("other-field").hidden ? [scheduleEditor()] : [scheduleEditor(), other]);

// Whether the strip is open: as it was chosen, and else where there is much room.
const muchRoom = matchMedia("(min-width: 60.01rem)");
let gatesChosen = null;
const gatesOpen = () => gatesChosen ?? muchRoom.matches;

// Shows the gate lists of what stands in the page: that in which the cursor stands, where a text is typed.
function showGates() {
  const parts = gateEditors();
  const source = parts.findIndex((it) => it.area === document.activeElement);
  strip.show(parts.map((it) => (it.isHeld ? "" : it.text)), source < 0 ? null : { source, place: parts[source].area.selectionStart });
  const open = strip.has && gatesOpen();
  at("edit-gates").hidden = !strip.has;
  at("edit-gates").setAttribute("aria-expanded", String(open));
  at("edit-gates").textContent = open ? "Hide the gates" : "Gates by hand";
  at("gates-hint").hidden = !open;
  at("gates").hidden = !open;
}

// The picture of a check, or of a network's port, shows the schedule whose gates are chosen.
function chooseSchedule(source, line) {
  const place = ALONE.includes(ran?.job) && !source ? ran.schedules.findIndex((it) => it.number === line) : -1;
  if (place < 0) return;
  at("which").value = String(ran.job === "paths" ? place + 1 : place);
  at("which").dispatchEvent(new Event("change"));
}

function openGates() {
  gatesChosen = !gatesOpen();
  showGates();
  if (gatesChosen) at("gates").scrollIntoView({ block: "nearest" });
}

// Notes what stands in the page before gates are changed by hand, so that Ctrl+Z brings it back; and what stood there before it was typed in.
function noteGates(source) {
  const part = gateEditors()[source];
  const typed = part.fresh ? null : part.put;
  beforeMove = ran?.isWhole ? gistOf(ran) : null;
  notePast();
  if (typed !== null) past.splice(-1, 0, { ...past.at(-1), [["text", "beside", "other"][editors.indexOf(part)]]: typed });
}

// Puts a text with other gates into the page, and runs it: one run after the other, each of the newest text.
function putGates(source, text, begin, end) {
  document.body.classList.add("moving");
  gateEditors()[source].change(text, begin, end);
  becomeOwn();
  if (isShort()) runMoved();
  else document.body.classList.remove("moving");
}

async function runMoved() {
  moved = moving;
  clearTimeout(runTimer);
  if (moving) return;
  moving = true;
  await runAll(true);
  moving = false;
  if (moved) await runMoved();
  else document.body.classList.remove("moving");
}

// What was moved stays as it is: a run of what stood there meanwhile is not waited for.
function endGates() {
  if (!moved) return;
  moved = false;
  runAll(true);
}

// 7. Schedules of other forms

// Says of what was pasted or dropped what it is, and as what it is read.
function sayRead(words, isFault = false) {
  at("read-as").hidden = !words;
  at("read-as").textContent = words;
  at("read-as").classList.toggle("fault", isFault);
}

// The schedules of a text of another form as tc lines, or null where it can't be read; it is said either way.
function importOf(text, form, where) {
  const name = nameOfForm(text, form);
  try {
    const { lines, notes } = importedFrom(text, form);
    const left = notes.map((it) => it.replace(/ \(--side .*\)$/, ""));
    sayRead([`This is ${name}: read as ${count(lines.length, "tc line")}${where}.`, ...left.map((it) => `Note: ${it}.`)].join(" "));
    return lines.map((it) => `${it}\n`).join("");
  } catch (error) {
    if (!(error instanceof BadSchedule)) throw error;
    sayRead(`This is ${name}, and can't be read. ${error.message[0].toUpperCase()}${error.message.slice(1)}. What stood here stays.`, true);
    return null;
  }
}

// What goes into a field where a text is pasted; null where nothing does. Schedules of other forms go in as tc lines, and from a table of streams
// beside it.
function takePasted(part, text) {
  sayRead("");
  const form = formOf(text, false);
  if (!form) return text;
  const isTable = part !== other && part !== scheduleEditor();
  const lines = importOf(text, form, isTable ? ", in the place of the tc lines of the other field" : "");
  if (lines === null || !isTable) return lines && part.apart(lines);
  notePast();
  scheduleEditor().text = withSchedule(plainly(scheduleEditor().text).text, lines);
  becomeOwn();
  return null;
}

// 8. What stands in the page

// What is shown is of another text or of other options than stand there now; a fault, too.
function setStale(is, words = "Changed since this was run, and too long to be run while you type. Run it (Ctrl+Enter in the text).") {
  for (const part of [at("view"), at("results"), at("fault")]) part.classList.toggle("stale", is);
  if (is && ran && words) say(words);
}

function setJob(name) {
  jobShown = name;
  at("form").elements.job.value = name;
  at("text-name").textContent = NAMES[name];
  at("text-hint").textContent = HINTS[name];
  at("beside-label").textContent = BESIDE[name] ?? "";
  at("which").replaceChildren();
  for (const part of document.querySelectorAll("[data-jobs]")) part.hidden = !part.dataset.jobs.split(" ").includes(name);
  showOtherField(other.text !== "");
}

function setCapture(octets, name) {
  [capture, captureName] = [octets, octets.length ? name ?? "" : ""];
  at("capture-name").textContent = octets.length ? `${name}, ${count(octets.length, "octet")}` : "none is chosen";
}

const stateNow = () => ({ job: jobShown, ...wordsOfOptions(), ...(hasBeside(jobShown) ? { beside: beside.text } : {}), ...(other.text && COMPARED.includes(jobShown) ? { other: other.text } : {}), text: editor.text });

// Puts a text, its kind and its options into the page, and runs it.
function load(state) {
  another = true;
  setJob(NAMES[state.job] ? state.job : "script");
  // (the picture of a check, and of a port, is of two cycles of the schedule that is chosen)
  setOptions(ALONE.includes(state.job) ? { ...state, from: "", to: "" } : state);
  editor.text = state.text ?? "";
  beside.text = state.beside ?? "";
  other.text = state.other ?? "";
  showOtherField(other.text !== "");
  for (const part of [editor, beside]) part.writeMicros();
  timeGiven = exampleShown !== OWN;
  saySentence();
  setCapture(state.octets ?? octetsIn(state.capture ?? ""), state.name);
  at("link-row").hidden = true;
  at("long-link").hidden = true;
  sayRead("");
  return runAll();
}

// All that stands in the page.
const allNow = () => ({ ...stateNow(), octets: capture, name: captureName, example: exampleShown, entry });

// Keeps what stands in the page for a reload, as far as this browser does so, and one's own input for good.
function keep() {
  if (changed) keepSoon();
  try {
    const withCapture = job() === "replay" && 4 * capture.length < 3 * MOST_KEPT ? { capture: base64Of(capture), name: captureName } : {};
    const state = { ...stateNow(), ...withCapture, example: exampleShown, entry, changed };
    if (editor.text.length + beside.text.length + other.text.length > MOST_KEPT) delete state.text;
    sessionStorage.setItem(KEPT, JSON.stringify(state));
  } catch {
    // (a browser may keep nothing for files)
  }
}

function kept() {
  try {
    return JSON.parse(sessionStorage.getItem(KEPT));
  } catch {
    return null;
  }
}

function keepSoon() {
  clearTimeout(keepTimer);
  keepTimer = setTimeout(keepNow, KEEP_AFTER);
}

// Keeps one's own input where it was changed. What is empty does not take the place of what was kept.
function keepNow(name = null) {
  clearTimeout(keepTimer);
  if (!changed || exampleShown !== OWN || !editor.text.trim()) return keeping;
  changed = false;
  const [its, { example, entry: _, ...state }] = [entry, allNow()];
  keeping = keeping.then(() => inputs.put(its, state, name ?? (captureName || null))).then(
    () => (sayKept(""), entry === its && keep(), showInputs()),
    (error) => sayKept(`Not kept for later: ${error.message}.`),
  );
  return keeping;
}

function sayKept(words) {
  at("kept").hidden = !words;
  at("kept-text").textContent = words;
  if (words) addressOf(at("save-input"), editor.text, "text/plain");
}

// Lists the inputs that are kept.
async function showInputs() {
  const all = await inputs.all().catch(() => []);
  at("inputs").hidden = all.length === 0;
  at("inputs-name").textContent = `Your inputs (${all.length})`;
  at("inputs-list").replaceChildren(...all.map(itemOf));
  if (all.length) offerOwn();
}

// An input of the list: its name can be changed, and it can be opened and deleted.
function itemOf({ id, name, date, size }) {
  const [item, field, open, remove, told] = ["li", "input", "button", "button", "span"].map((it) => document.createElement(it));
  field.value = name;
  field.setAttribute("aria-label", "Name of the input");
  field.addEventListener("change", () => inputs.rename(id, field.value.trim() || name).then(showInputs));
  [open.type, open.textContent] = ["button", "Open"];
  open.setAttribute("aria-label", `Open ${name}`);
  open.addEventListener("click", () => openInput(id));
  [remove.type, remove.textContent] = ["button", "Delete"];
  remove.setAttribute("aria-label", `Delete ${name}`);
  remove.addEventListener("click", () => inputs.remove(id).then(showInputs));
  told.className = "hint";
  told.textContent = `${new Date(date).toLocaleString()}, ${count(size, "character")}${entry.id === id && exampleShown === OWN ? ", open now" : ""}`;
  item.append(field, open, remove, told);
  return item;
}

// Opens a kept input; false where it is no longer there.
async function openInput(id) {
  notePast();
  await keeping;
  const [it, state] = [(await inputs.all()).find((one) => one.id === id), await inputs.state(id)];
  if (!it || !state) return false;
  showOwn({ id, stamp: it.stamp });
  await load(state);
  await showInputs();
  return true;
}

// Notes what stands in the page before another text takes its place, so that Ctrl+Z brings it back.
function notePast() {
  if (!exampleShown) return;
  keepNow();
  changed = false;
  noteOwn();
  past.push(allNow());
  if (past.length > MOST_PAST) past.shift();
  future.length = 0;
}

// Goes back to what stood in the page before, or forth again.
async function goBack(from, to) {
  keepNow();
  changed = false;
  to.push(allNow());
  const { example, entry: its, ...state } = from.pop();
  if (example === OWN) showOwn(its);
  else showExample(example);
  await load(state);
  if (!at("gates").contains(document.activeElement)) editor.area.focus();
}

// Ctrl+Z and Ctrl+Y where the browser itself has nothing to undo in the text.
function undoByKey(event) {
  if (!(event.ctrlKey || event.metaKey) || event.altKey) return;
  const key = event.key.toLowerCase();
  const [from, to] = key === "y" || (key === "z" && event.shiftKey) ? [future, past] : key === "z" ? [past, future] : [[], []];
  const part = editors.find((it) => it.area === event.target);
  if (!from.length || (part ? !part.fresh : event.target.matches?.("input:not([type=radio], [type=checkbox])"))) return;
  event.preventDefault();
  goBack(from, to);
}

const byName = (name) => examples.find((it) => it.name === name);

function fillExamples() {
  const told = STEPS.filter(([name]) => byName(name));
  const story = document.createElement("optgroup");
  story.label = "In steps";
  told.forEach(([name, title], place) => story.append(new Option(`${place + 1}. ${title}`, name)));
  at("example").append(story);
  const others = examples.filter((it) => !told.some(([name]) => name === it.name));
  const group = document.createElement("optgroup");
  group.label = "More";
  for (const it of others) group.append(new Option(it.name, it.name));
  at("example").append(group);
}

function saySentence() {
  const name = at("example").value;
  const step = STEPS.find((it) => it[0] === name);
  at("sentence").textContent = step && byName(name).job === job() ? step[2] : "";
}

function showExample(name) {
  exampleShown = name;
  at("example").value = name;
}

function offerOwn() {
  if (!at("example").querySelector(`[value=${OWN}]`)) at("example").prepend(new Option("your own", OWN));
}

// What is shown is one's own, of this kept input.
function showOwn(its) {
  offerOwn();
  showExample(OWN);
  entry = its;
  own = null;
}

// The text was changed, and is one's own from now on; what is shown is of another. The link of the page is of another text, too.
function becomeOwn() {
  if (exampleShown !== OWN) showOwn({});
  if (timeGiven) forgetTime();
  changed = true;
  future.length = 0;
  dropLink();
  saySentence();
  runSoon();
  keep();
}

function dropLink() {
  if (location.hash.includes("text=")) history.replaceState(null, "", location.href.split("#")[0]);
}

// Another text of one's own begins: what stood here is kept as it is.
function beginAnother() {
  another = true;
  if (!editor.text.trim()) return;
  notePast();
  if (exampleShown === OWN) entry = {};
}

// What is typed or pasted in the place of all is another text: the time that the picture showed of the old one goes with it.
function forgetTime() {
  timeGiven = false;
  at("from").value = "";
  at("to").value = "";
}

async function chooseExample() {
  notePast();
  const name = at("example").value;
  if (name !== OWN) {
    showExample(name);
    return load(byName(name));
  }
  if (own) {
    const { entry: its, ...state } = own;
    showOwn(its);
    return load(state);
  }
  await keeping;
  const [newest] = await inputs.all().catch(() => []);
  return newest && openInput(newest.id);
}

// Goes to the example before or after.
function stepExample(step) {
  const all = [...at("example").options];
  const place = all.findIndex((it) => it.value === at("example").value);
  at("example").value = all[(place + step + all.length) % all.length].value;
  return chooseExample();
}

// Keeps one's own text while an example is shown.
function noteOwn() {
  if (exampleShown === OWN) own = { ...stateNow(), octets: capture, name: captureName, entry };
}

const SCRIPT_LINE = /^[ \t]*(?:clock|frame|stream|query|count)\b/m;
const FRAME_LINE = /^[ \t]*(?:frame|stream)\b/m;

// Whether the text that stands in the page can be that of a job.
function fits(name) {
  const words = editor.text;
  if (!words.trim()) return false;
  if (name === "script") return !hasStreams(words);
  if (["streams", "plan"].includes(name)) return hasStreams(words);
  if (name === "replay") return capture.length > 0 && !FRAME_LINE.test(words);
  if (SCRIPT_LINE.test(words)) return false;
  return name === "check" || (hasStreams(beside.text) && (name === "paths" || !isNetwork(beside.text)));
}

// Another job by its tab: one's own text goes with it where it can, and else an example comes.
function chooseJob() {
  const name = job();
  // (a plan is made for the streams that were judged)
  if (name === "plan" && at("example").value === OWN && JUDGED.includes(jobShown) && hasStreams(beside.text)) return goOnWith({ job: name, text: beside.text });
  if (at("example").value === OWN && fits(name)) {
    setJob(name);
    changed = true;
    forgetTime();
    return runAll();
  }
  const first = STEPS.map(([it]) => byName(it)).find((it) => it?.job === name) ?? examples.find((it) => it.job === name);
  noteOwn();
  at("example").value = own?.job === name ? OWN : first.name;
  return chooseExample();
}

// Takes the file that was chosen; the same one can be chosen again.
async function takeChosen() {
  const [file] = at("file").files;
  if (file) await takeFile(file);
  at("file").value = "";
}

// The text of a file, or null where it has a schedule that can't be read.
function textOf(octets) {
  const text = new TextDecoder().decode(octets);
  const form = formOf(text, true);
  return form ? importOf(text, form, "") : text;
}

// The classic capture of one in pcapng, or null where it can't be read. It is said either way.
async function classicCapture(octets) {
  try {
    const told = await runner.run({ job: "classic", octets });
    const rounded = told.isRounded ? " Note: moments are rounded down to whole nanoseconds." : "";
    sayRead(`This is a capture in pcapng: read as a classic one of ${count(told.packets, "frame")}.${rounded}`);
    return told.octets;
  } catch (error) {
    sayRead(`This is a capture in pcapng, and can't be read: ${error.message}. What stood here stays.`, true);
    return null;
  }
}

// Takes a file by what its octets are.
async function takeFile(file) {
  sayRead("");
  const octets = new Uint8Array(await file.arrayBuffer());
  const kind = kindOf(octets);
  if (kind.kind === "other") {
    say(`${file.name}: ${kind.why}`);
    return;
  }
  if (["capture", "pcapng"].includes(kind.kind)) {
    const classic = kind.kind === "capture" ? octets : await classicCapture(octets);
    if (!classic) return;
    beginAnother();
    setJob("replay");
    setCapture(classic, file.name);
    // (the frames of a replay are those of the capture)
    if (FRAME_LINE.test(editor.text)) editor.text = editor.text.split("\n").filter((it) => !FRAME_LINE.test(it)).join("\n");
    at("until").value = "";
  } else {
    const text = textOf(octets);
    if (text === null) return;
    const name = jobOf(text, job());
    const part = JUDGED.includes(name) && (hasStreams(text) || isNetwork(text)) ? beside : editor;
    beginAnother();
    part.text = text;
    // (beside a network stand schedules)
    if (name === "paths" && SCRIPT_LINE.test(editor.text)) editor.text = "";
    part.writeMicros();
    setJob(name);
  }
  forgetTime();
  becomeOwn();
  keepNow(file.name);
  await runAll();
}

async function makeLink() {
  const fragment = await writeLink(stateNow());
  const long = fragment.length > MOST_LINK;
  at("long-link").hidden = !long;
  at("link-row").hidden = long;
  if (long) {
    at("long-link-text").textContent = `The link would have ${fragment.length.toLocaleString("en")} characters, and many places take no more than ${MOST_LINK.toLocaleString("en")}.`;
    addressOf(at("save-text"), editor.text, "text/plain");
    return;
  }
  history.replaceState(null, "", fragment);
  at("address").value = location.href;
  at("address").focus();
  at("address").select();
  await navigator.clipboard?.writeText(location.href).catch(() => {});
  const without = job() === "replay" ? " The capture is not in it." : "";
  say(`The link is made, and stands in the field below the buttons.${without}`);
}

async function openLink() {
  try {
    const state = await readLink(location.hash);
    if (!state) return false;
    const before = kept();
    // (a link that was made of what stood here before a reload is of the same input)
    const same = before?.example === OWN && before.text === state.text && before.job === (state.job ?? "script");
    notePast();
    showOwn(same ? before.entry : {});
    await load(state);
  } catch (error) {
    say(`The link can't be read: ${error.message}`);
  }
  return true;
}

// Goes on with another input, that is made of this one: this one stays among the kept ones.
async function goOnWith(state) {
  const { rate, mtu, room } = wordsOfOptions();
  notePast();
  showOwn({});
  changed = true;
  await load({ rate, mtu, room, ...state });
}

// Goes on with the script that a table of streams made, or with a plan and its streams, whose gates are moved by hand.
function takeAnswered() {
  if (ran.job === "streams") return goOnWith({ job: "script", text: ran.answers, other: other.text });
  gatesChosen = true;
  return goOnWith({ job: isNetwork(ran.text) ? "paths" : "bounds", text: ran.answers, beside: ran.text });
}

// A file may be dropped or pasted anywhere, and the page shows so while it is dragged; text that is dragged stays with the browser.
function listenToFiles() {
  const mark = (is) => document.body.classList.toggle("dropping", is);
  const isFile = (event) => event.dataTransfer?.types.includes("Files");
  addEventListener("dragover", (event) => {
    if (!isFile(event)) return;
    event.preventDefault();
    mark(true);
  });
  addEventListener("dragleave", (event) => event.relatedTarget || mark(false));
  addEventListener("drop", (event) => {
    mark(false);
    if (!isFile(event)) return;
    event.preventDefault();
    if (event.dataTransfer.files[0]) takeFile(event.dataTransfer.files[0]);
  });
  addEventListener("paste", (event) => {
    const [file] = event.clipboardData?.files ?? [];
    if (!file) return;
    event.preventDefault();
    takeFile(file);
  });
}

function changeOption() {
  runSoon();
  dropLink();
  changed = exampleShown === OWN;
  keep();
}

function listenToInput() {
  at("form").addEventListener("submit", (event) => {
    event.preventDefault();
    runAll();
  });
  at("form").addEventListener("keydown", (event) => {
    if (event.key === "Enter" && (event.ctrlKey || event.metaKey)) runAll();
  });
  for (const radio of at("form").elements.job) radio.addEventListener("change", chooseJob);
  for (const part of [editor, beside]) {
    part.area.addEventListener("beforeinput", () => part.whole && (beginAnother(), forgetTime()));
    part.area.addEventListener("replace", ({ detail }) => (detail.whole ? (beginAnother(), forgetTime()) : notePast()));
    part.area.addEventListener("input", () => (part.writeMicros(), becomeOwn()));
  }
  other.area.addEventListener("replace", notePast);
  other.area.addEventListener("input", becomeOwn);
  at("exact").addEventListener("input", () => strip.forget());
  for (const input of document.querySelectorAll(".options input, .options select")) input.addEventListener("input", changeOption);
  at("example").addEventListener("change", chooseExample);
  at("back").addEventListener("click", () => stepExample(-1));
  at("next").addEventListener("click", () => stepExample(1));
  for (const name of ["open", "capture"]) at(name).addEventListener("click", () => at("file").click());
  at("file").addEventListener("change", takeChosen);
  at("stop").addEventListener("click", () => runner.stop());
  at("link").addEventListener("click", makeLink);
  at("take").addEventListener("click", takeAnswered);
  at("compare").addEventListener("click", openCompare);
  at("copy-schedule").addEventListener("click", copySchedule);
  at("end-compare").addEventListener("click", endCompare);
  at("edit-gates").addEventListener("click", openGates);
}

function listenToResults() {
  at("draw").addEventListener("click", runPicture);
  at("set-clock").addEventListener("click", setClockThere);
  for (const name of ["from", "to"]) at(name).addEventListener("input", () => (timeGiven = false));
  at("save-png").addEventListener("click", savePng);
  at("origin").addEventListener("change", () => ran && (layPicture(), showTables()));
  at("which").addEventListener("change", () => begin(async (mine) => {
    forgetTime();
    if (ALONE.includes(ran.job)) {
      if (ran.job !== "plan") strip.showLine(chosenSchedule()?.number);
      await takeSchedule(mine);
    }
    fillOrigins(ran);
    showTables();
    if (ran.job === "bounds") sayVerdict("");
    await draw(mine);
  }));
  at("ps").addEventListener("change", () => ran && (showTables(), tellWhy(viewer.frame), hasBars() && showBounds()));
  at("answers").addEventListener("click", findAnswered);
  at("frames-box").addEventListener("toggle", () => at("frames-box").open && showFrames());
  at("save-frames").addEventListener("click", () => saveFrames().catch(showError));
  at("zoom").addEventListener("click", (event) => event.target.dataset.step && zoom(event.target.dataset.step));
  at("zoom").addEventListener("keydown", (event) => event.key === "Enter" && event.target.matches("input") && runPicture());
}

function listen() {
  listenToInput();
  listenToResults();
  listenToFiles();
  addEventListener("hashchange", openLink);
  addEventListener("keydown", undoByKey);
  for (const name of ["pagehide", "visibilitychange"]) addEventListener(name, () => keepNow());
  let width = innerWidth;
  addEventListener("resize", () => {
    if (innerWidth === width) return;
    width = innerWidth;
    showGates();
    runPicture();
  });
}

// Says that this browser can't run the port: what can't be used is not shown.
function refuseBrowser(why) {
  for (const part of document.querySelectorAll(".jobs, .story, #form, #results")) part.hidden = true;
  at("view").classList.add("alone");
  say("");
  showFault(`This browser can't run the port: ${why}. ${INSTEAD}`);
}

// Goes on where a reload broke off, or with one's newest input, or begins with an example.
async function goOn() {
  const state = kept();
  if (state?.text !== undefined) {
    const example = byName(state.example);
    if (example) showExample(example.name);
    else showOwn(state.entry ?? {});
    changed = Boolean(state.changed);
    await load({ capture: example?.capture, ...state });
    return;
  }
  const newest = state?.entry?.id ?? (await inputs.all().catch(() => []))[0]?.id;
  if (newest !== undefined && (await openInput(newest).catch(() => false))) return;
  showExample(FIRST);
  await load(byName(FIRST));
}

async function start() {
  fillExamples();
  setJob("script");
  hidePicture("");
  const why = lacking();
  if (why) {
    refuseBrowser(why);
    return;
  }
  listen();
  await showInputs();
  if (!(await openLink())) await goOn();
}

start();
