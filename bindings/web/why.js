// Why a frame waits: by the schedules of its run, exactly, and by the frames that are on the wire meanwhile.
import { sortedOf } from "./frames.js";

const MOST_PARTS = 200; // parts of a wait that are told apart
const MOST_STEPS = 20_000; // looks at an entry or at a command for one wait
const MOST_COMMANDS = 500; // accepted commands of a run whose gates are worked out
const MOST_NAMED = 3; // frames that one reason names

// The least of moments, of which some may be null: for ever.
const least = (...moments) => moments.reduce((one, other) => (one === null || (other !== null && other < one) ? other : one));

// 1. The gates of a run, as crates/gates/specs/History.antt defines them

const FIELDS = { "base-time": "base", "cycle-time": "cycle", "cycle-time-extension": "extension" };

// What a cycle shows, entry by entry: a list that is too long is cut, and the last entry of one that is too short stays.
function spansOf(entries, cycle) {
  const found = [];
  let from = 0n;
  for (const [place, { mask, interval }] of entries.entries()) {
    const to = place === entries.length - 1 ? cycle : least(from + interval, cycle);
    if (from < cycle) found.push({ to, mask });
    from += interval;
  }
  return found;
}

// The words of an accepted command as a schedule in picoseconds; null for a deletion.
function planOf(words) {
  if (words[2] === "del") return null;
  let place = 3;
  while (place < words.length && words[place] !== "taprio") place += words[place] === "root" ? 1 : 2;
  const given = { base: 0n, cycle: 0n, extension: 0n };
  const entries = [];
  for (; place < words.length; place += 1) {
    const field = FIELDS[words[place]];
    if (field) given[field] = 1000n * BigInt(words[place + 1]);
    else if (words[place] === "sched-entry") entries.push({ mask: parseInt(words[place + 2], 16), interval: 1000n * BigInt(words[place + 3]) });
  }
  const cycle = given.cycle || entries.reduce((sum, it) => sum + it.interval, 0n);
  const spans = spansOf(entries, cycle);
  const last = entries.at(-1).mask;
  const masks = [...spans.map((it) => it.mask), last];
  return { ...given, cycle, spans, last, always: masks.reduce((one, other) => one & other), ever: masks.reduce((one, other) => one | other) };
}

// The moment at which a schedule comes into force that may do so from its lead on.
function changeFor(plan, lead) {
  if (!plan) return lead;
  if (lead <= plan.base) return plan.base;
  return plan.base + plan.cycle * ((lead - plan.base + plan.cycle - 1n) / plan.cycle);
}

/**
 * The accepted commands of a run with all that its gates depend on.
 *
 * @param {{words: string[], moment: bigint}[]} commands those of the script
 * @param {string} answers
 * @param {{rate: number, mtu: number}} port
 * @returns {object[] | null} null where they can't be known: the port tells of another change than follows from them, or there are too many
 */
export function historyOf(commands, answers, { rate, mtu }) {
  const told = answers.match(/^(?:installed|refused|tc-fault)\b.*$/gm) ?? [];
  const length = (BigInt(mtu) + 42n) * (8_000_000n / BigInt(rate));
  const found = [];
  for (const [place, answer] of told.entries()) {
    const [, change] = /^installed change (\d+)$/.exec(answer) ?? [];
    if (change === undefined) continue;
    if (!commands[place] || found.length === MOST_COMMANDS) return null;
    const lead = commands[place].moment + length;
    const plan = planOf(commands[place].words);
    if (changeFor(plan, lead) !== BigInt(change)) return null;
    found.push({ lead, change: BigInt(change), plan });
  }
  // (a command that another takes the place of before its change never comes into force)
  return found.map((it, place) => ({ ...it, inTime: !found[place + 1] || it.change <= found[place + 1].lead }));
}

// What the plan in force since a moment shows in a cycle, and up to when: its entries, or its last state up to the pending change.
function shownBy({ plan, change }, next, moment) {
  const begin = moment - ((moment - change) % plan.cycle);
  if (next && begin > change && next.lead <= begin && next.change - begin <= plan.extension) return { mask: plan.last, until: begin + plan.cycle };
  const span = plan.spans.find((it) => moment - begin < it.to);
  return { mask: span.mask, until: begin + span.to };
}

// Whether a class is open at a moment, and up to when that is known; `until` is null for ever.
function gateOnce({ history, events }, kind, moment) {
  const now = history.findLast((it) => it.inTime && it.change <= moment);
  const latest = history.findLast((it) => it.lead <= moment);
  const event = events[countFirst(events, (it) => it <= moment)] ?? null;
  const bit = 1 << kind;
  if (!now?.plan || now.plan.always & bit) return { open: true, until: event };
  if (!(now.plan.ever & bit)) return { open: false, until: event };
  const { mask, until } = shownBy(now, latest && latest.change > moment ? latest : null, moment);
  return { open: Boolean(mask & bit), until: least(until, event) };
}

// Whether a class is open at a moment, and up to when it stays so, looked at up to a limit; null where that takes too long.
function gateAt(run, kind, moment, limit) {
  const first = gateOnce(run, kind, moment);
  let { until } = first;
  while (until !== null && until < limit) {
    run.steps -= 1;
    if (run.steps < 0) return null;
    const next = gateOnce(run, kind, until);
    if (next.open !== first.open) break;
    ({ until } = next);
  }
  return { open: first.open, until };
}

// 2. The frames of a run

/** The frames that were sent, by their starts: these are told in their order. */
export const sentByStart = (frames) => frames.filter((it) => it.start !== null).sort((one, other) => one.told - other.told);

/**
 * What is looked at for the waits of a run's frames.
 *
 * @param {object[]} frames those of the run, as `framesOf` gives them
 * @param {object[] | null} history its accepted commands
 * @param {number} rate the line rate, in Mb/s
 * @param {bigint} end the moment to which the run goes
 * @param {object[]} wire those that were sent, by their starts
 */
export function runOf(frames, history, rate, end, wire = sentByStart(frames)) {
  const { queues } = sortedOf(frames);
  const events = (history ?? []).flatMap((it) => [it.lead, it.change]).sort((one, other) => (one < other ? -1 : 1));
  return { wire, queues, history, events, octet: 8_000_000n / BigInt(rate), end, steps: 0 };
}

/** The number of the first items that pass, of a list whose items that pass come first. */
export function countFirst(list, pass) {
  let [low, high] = [0, list.length];
  while (low < high) {
    const middle = (low + high) >> 1;
    if (pass(list[middle])) low = middle + 1;
    else high = middle;
  }
  return low;
}

// How long a frame occupies the wire, with all that surrounds it.
const needOf = (run, { length }) => (BigInt(Math.max(Number(length), 60)) + 24n) * run.octet;

// The frame that is on the wire at a moment, if any, and the next start after it.
function wireAt({ wire }, moment) {
  const begun = countFirst(wire, (it) => it.start <= moment);
  const last = wire[begun - 1];
  return { on: last && last.end > moment ? last : null, next: wire[begun]?.start ?? null };
}

// The first frame of a class that waits at a moment.
const headAt = ({ queues }, kind, moment) => queues[kind][countFirst(queues[kind], (it) => it.start !== null && it.start <= moment)];

// 3. The reasons

// Why a frame waits at a moment, and up to when; null where that can't be known.
function partAt(run, frame, moment, end) {
  const { on, next } = wireAt(run, moment);
  if (!run.history) return on && { kind: "wire", frame: on, from: moment, to: least(on.end, end) };
  const need = needOf(run, frame);
  const gate = gateAt(run, frame.class, moment, moment + need > end ? moment + need : end);
  if (!gate) return null;
  if (!gate.open) return { kind: "closed", from: moment, to: least(gate.until, end) };
  const head = headAt(run, frame.class, moment);
  const room = gate.until === null ? null : gate.until - moment;
  const short = { kind: "short", need, has: room, from: moment, to: least(gate.until, on ? on.end : next, end) };
  // (a frame of a lower class was taken, since this one was too long)
  if (on) return head === frame && on.class < frame.class && on.start >= frame.arrival && room !== null && room < need ? short : { kind: "wire", frame: on, from: moment, to: least(on.end, gate.until, end) };
  const wanted = head === frame ? need : needOf(run, head);
  const known = gateAt(run, frame.class, moment, moment + wanted);
  if (!known || known.until === null || known.until - moment >= wanted) return null;
  return head === frame ? short : { ...short, kind: "behind", frame: head, need: wanted };
}

// Whether a part goes on with the one before it.
const goesOn = (last, part) => last?.kind === part.kind && last.frame === part.frame;

/**
 * Why a frame waits, part by part from its arrival to its start, or to the end of the run.
 *
 * @param {ReturnType<typeof runOf>} run
 * @param {object} frame one that was sent or is left
 * @returns {{parts: {kind: "wire" | "closed" | "short" | "behind", from: bigint, to: bigint, frame?: object, need?: bigint, has?: bigint}[], whole: boolean}}
 *   `wire`: that frame is on the wire; `closed`: its gate is; `short`: its gate is open, for less than it needs; `behind`: that frame of its
 *   class, which waits before it, needs more than its gate is open for. Not whole where the parts end before the wait does
 */
export function partsOf(run, frame) {
  const end = frame.start ?? run.end;
  const parts = [];
  run.steps = MOST_STEPS;
  for (let moment = frame.arrival; moment < end; moment = parts.at(-1).to) {
    const part = partAt(run, frame, moment, end);
    if (!part) return { parts, whole: false };
    if (goesOn(parts.at(-1), part)) parts.at(-1).to = part.to;
    else if (parts.length === MOST_PARTS) return { parts, whole: false };
    else parts.push(part);
  }
  return { parts, whole: true };
}

// 4. The sentence

const inWords = (words) => (words.length < 2 ? words.join("") : `${words.slice(0, -1).join(", ")} and ${words.at(-1)}`);

// Parts in which frames are on the wire, one after another, as one: those that came before, and those that were taken first.
function grouped(parts, frame) {
  const found = [];
  for (const part of parts) {
    const first = part.kind === "wire" && part.frame.start >= frame.arrival;
    const last = found.at(-1);
    if (first && last?.kind === "first") Object.assign(last, { to: part.to, frames: last.frames.includes(part.frame) ? last.frames : [...last.frames, part.frame] });
    else found.push(first ? { ...part, kind: "first", frames: [part.frame] } : { ...part });
  }
  return found;
}

function namesOf(frames) {
  if (frames.length === 1) return `frame ${frames[0].id} of class ${frames[0].class} is`;
  const more = frames.length > MOST_NAMED + 1 ? [`${frames.length - MOST_NAMED} more`] : [];
  const named = more.length ? frames.slice(0, MOST_NAMED) : frames;
  return `frames ${inWords([...named.map((it) => it.id), ...more])} are`;
}

const REASONS = {
  closed: () => "its gate is closed",
  wire: ({ frame }) => `${namesOf([frame])} on the wire`,
  first: ({ frames }) => `${namesOf(frames)} sent first`,
  short: ({ need, has }, time) => `its gate closes too soon (it needs ${time(need)}, and has ${time(has)})`,
  behind: ({ frame, need, has }, time) => `frame ${frame.id} of its class goes first, and the gate closes too soon for it (it needs ${time(need)}, and has ${time(has)})`,
};

/**
 * Why a frame waits, in a sentence; nothing for one that doesn't.
 *
 * @param {ReturnType<typeof runOf>} run
 * @param {object} frame
 * @param {{time: (length: bigint) => string, at: (moment: bigint) => string}} write
 * @param {number} most reasons that are told
 */
export function whySaid(run, frame, { time, at }, most) {
  const end = frame.start ?? run.end;
  if ((frame.start === null && frame.fate !== "left") || end <= frame.arrival) return "";
  const { parts, whole } = partsOf(run, frame);
  const all = grouped(parts, frame);
  const told = all.slice(0, most).map((part) => {
    const last = part.to === end && (frame.start === null || part.kind === "first");
    const until = !last ? ` until ${at(part.to)}` : frame.start === null ? ", to the end of the run" : "";
    return `${REASONS[part.kind](part, time)}${until}`;
  });
  if (all.length > most) told.push(whole ? `and so on, ${all.length - most} more reasons` : "and so on");
  else if (!whole) told.push("the rest is not told apart");
  const waits = frame.start === null ? "still waits at the end of the run" : `waits ${time(end - frame.arrival)}`;
  return `Frame ${frame.id} ${waits}: ${told.join("; ")}.`;
}
