// Calls the port's WebAssembly module, as bindings/c/taprio.h declares it. Only this file knows where its values lie, and where its heap is.

/** The jobs that the module does, by the names of the program's. */
export const JOBS = ["script", "draw", "check", "streams", "replay", "bounds", "paths", "plan", "frames"];

const BLOCK = 16; // octets of the least block of the heap, and of what stands before each block
const PAGE = 65536; // octets of a page of the module's memory
const PORT_VALUES = 40; // octets of struct taprio_port_values
const PICTURE_VALUES = 48; // octets of struct taprio_picture_values
const PLAN_VALUES = 32; // octets of struct taprio_plan_values
const DEVICE = new TextEncoder().encode("eth0"); // the device of a plan, where the table names no port
const RAN = 32; // octets of struct taprio_replay_ran, the longer one
const MOMENT = 24; // octets of struct taprio_moment_value
const NO_ROOM = 5; // the status where a slice has too little room
const FAULT_ROOM = 256;
const LEAST_ROOM = 1 << 20;

/** The module's heap: from its end on, blocks of 16 * 2^k octets, each behind 16 octets that hold its k. */
class Heap {
  #free = new Map();

  /** @param {WebAssembly.Exports} exports the instance's */
  bind(exports) {
    this.memory = exports.memory;
    this.end = Math.ceil(Number(exports.__heap_base.value) / BLOCK) * BLOCK;
  }

  view() {
    return new DataView(this.memory.buffer);
  }

  /** A block of at least this many octets, or 0 where there is none. */
  take(length) {
    let k = 0;
    while (BLOCK * 2 ** k < length) k += 1;
    const freed = this.#free.get(k);
    if (freed?.length) return freed.pop();
    const at = this.end + BLOCK;
    const end = at + BLOCK * 2 ** k;
    if (!this.#reach(end)) return 0;
    this.end = end;
    this.view().setUint8(at - BLOCK, k);
    return at;
  }

  /** Gives a block back. */
  give(at) {
    const k = this.view().getUint8(at - BLOCK);
    if (!this.#free.has(k)) this.#free.set(k, []);
    this.#free.get(k).push(at);
  }

  /** What the module imports. */
  imports() {
    return {
      page_alloc: (result, length) => this.#tell(result, this.take(Number(length))),
      page_realloc: (result, at, kept, length) =>
        this.#tell(result, this.#resize(Number(at), Number(kept), Number(length))),
      page_dealloc: (at) => this.give(Number(at)),
    };
  }

  // Whether the memory reaches this far, grown where it didn't.
  #reach(end) {
    const lacking = end - this.memory.buffer.byteLength;
    if (lacking <= 0) return true;
    try {
      this.memory.grow(BigInt(Math.ceil(lacking / PAGE)));
      return true;
    } catch {
      return false;
    }
  }

  #resize(old, kept, length) {
    const k = this.view().getUint8(old - BLOCK);
    if (length <= BLOCK * 2 ** k) return old;
    const at = this.take(length);
    if (at) {
      new Uint8Array(this.memory.buffer).copyWithin(at, old, old + kept);
      this.give(old);
    }
    return at;
  }

  // Writes { ok: bool, p: *mut u8 }: a refusal has a pointer too, that isn't null.
  #tell(result, at) {
    const view = this.view();
    view.setUint8(Number(result), at ? 1 : 0);
    view.setBigUint64(Number(result) + 8, BigInt(at || BLOCK), true);
  }
}

// Writes a moment as its lower and its upper 64 bits.
function putMoment(view, at, moment) {
  const value = moment ?? 0n;
  view.setBigUint64(at, BigInt.asUintN(64, value), true);
  view.setBigUint64(at + 8, BigInt.asUintN(64, value >> 64n), true);
}

// Writes struct taprio_port_values.
function putPort(view, at, values) {
  view.setUint32(at, values.rate, true);
  view.setUint32(at + 4, values.mtu, true);
  view.setUint32(at + 8, values.room, true);
  view.setUint32(at + 12, values.summary ? 1 : 0, true);
  view.setBigUint64(at + 16, values.until === null ? 0n : 1n, true);
  putMoment(view, at + 24, values.until);
}

// Writes struct taprio_picture_values.
function putPicture(view, at, values) {
  putMoment(view, at, values.from);
  view.setBigUint64(at + 16, values.to === null ? 0n : 1n, true);
  putMoment(view, at + 24, values.to);
  view.setUint32(at + 40, values.width, true);
  view.setUint32(at + 44, 0, true);
}

// Writes struct taprio_plan_values: 0 is a cycle by the periods.
function putPlan(view, at, { cycle, least, base, entries, share }) {
  [cycle, least, base].forEach((time, place) => view.setBigUint64(at + 8 * place, time ?? 0n, true));
  view.setUint32(at + 24, entries, true);
  view.setUint32(at + 28, share ? 1 : 0, true);
}

// The frames of a script; where there is a table of streams, with the stream of each.
const framesCall = ({ beside }) =>
  beside.length
    ? ["taprio_frames_by_stream", (at, { input }) => [at.port, at.beside, beside.length, at.input, input.length]]
    : ["taprio_frames", (at, { input }) => [at.port, at.input, input.length]];

// The script of a table of streams: each frame at its earliest, at its latest, or as a seed draws it; offsets count from 0.
function streamsCall({ values }) {
  const slices = (at, { input, beside }) => [at.input, input.length, at.beside, beside.length];
  if (values.seed !== null) return ["taprio_streams_drawn", (at, request) => [values.seed, 0, 0, ...slices(at, request)]];
  return values.late ? ["taprio_streams_late", (at, request) => [0, 0, ...slices(at, request)]] : ["taprio_streams", slices];
}

// What is asked of bounds and paths, as TAPRIO_SLACK, TAPRIO_LEFTOVERS, TAPRIO_WHY and TAPRIO_SILENT say it.
const askedOf = ({ slack, why, leftovers, silent }) => ((silent ?? 0) << 8) | (slack ? 1 : 0) | (leftovers ? 2 : 0) | (why ? 4 : 0);

// What each job calls, and the words of the call before its outputs; a slice is its address and its length.
const CALLS = {
  script: ["taprio_run", (at, { input }) => [at.port, at.input, input.length]],
  draw: ["taprio_draw", (at, { input }) => [at.port, at.picture, at.input, input.length]],
  plan: ["taprio_plan", (at, { input }) => [at.port, at.plan, at.device, DEVICE.length, at.input, input.length]],
  replay: ["taprio_replay", (at, { input, beside }) => [at.port, at.input, input.length, at.beside, beside.length]],
};

// The jobs over schedules that have a table of streams or a network beside them, and walk so many frames.
const ASKED = { bounds: "taprio_bounds_asked", paths: "taprio_paths" };

// The jobs whose call depends on what is asked.
const CHOSEN = { frames: framesCall, streams: streamsCall };

// What each job fills, in the order of the lengths that are told: a replay has two outputs.
const filled = (job) => (job === "replay" ? ["output", "departures", "fault"] : ["output", "fault"]);

// Calls the module: addresses and lengths are 64 bits wide; the two numbers of a check and what is asked of bounds and paths are 32.
function call(exports, at, request, lengths) {
  const slices = filled(request.job).flatMap((name) => [at[name], lengths[name]]);
  const ends = [...slices, at.ran].map(BigInt);
  if (request.job === "check") {
    const { rate, windows, shares } = request.values;
    exports[shares ? "taprio_check_shares" : "taprio_check"](rate, windows ? 1 : 0, BigInt(at.input), BigInt(request.input.length), ...ends);
    return;
  }
  if (ASKED[request.job]) {
    const { values, input, beside } = request;
    const texts = [at.beside, beside.length, at.input, input.length].map(BigInt);
    exports[ASKED[request.job]](BigInt(at.port), BigInt(values.frames), askedOf(values), ...texts, ...ends);
    return;
  }
  const [name, words] = CHOSEN[request.job]?.(request) ?? CALLS[request.job];
  exports[name](...words(at, request).map(BigInt), ...ends);
}

const NOTHING = new Uint8Array();
const memoryWanting = () => ({ status: 4, output: NOTHING, departures: NOTHING, fault: "taprio_port: out of memory\n" });

// How long all is that a call is given and tells.
const lengthsOf = ({ job, input, beside }, room) => ({
  input: input.length,
  beside: beside.length,
  output: room,
  departures: job === "replay" ? room : 0,
  fault: FAULT_ROOM,
  port: PORT_VALUES,
  picture: PICTURE_VALUES,
  plan: PLAN_VALUES,
  device: DEVICE.length,
  ran: RAN,
});

// Blocks of these lengths, or null.
function blocksOf(heap, lengths) {
  const at = {};
  for (const [name, length] of Object.entries(lengths)) {
    at[name] = heap.take(length);
    if (!at[name]) return null;
  }
  return at;
}

// What struct taprio_ran or struct taprio_replay_ran and the slices tell.
function tellOf(heap, at, job) {
  const view = heap.view();
  const names = filled(job);
  const status = view.getUint8(at.ran + 8 * names.length);
  const lengths = names.map((_, place) => Number(view.getBigUint64(at.ran + 8 * place, true)));
  if (status === NO_ROOM) return { status, wanted: Math.max(...lengths) };
  if (status === 4) return memoryWanting();
  const octets = names.map((name, place) => new Uint8Array(heap.memory.buffer, at[name], lengths[place]).slice());
  const told = Object.fromEntries(names.map((name, place) => [name, octets[place]]));
  return { departures: NOTHING, ...told, status, fault: new TextDecoder().decode(told.fault) };
}

function runWith(module, request, room) {
  const { heap, exports } = instanceOf(module);
  const lengths = lengthsOf(request, room);
  const at = blocksOf(heap, lengths);
  if (!at) return memoryWanting();
  const memory = new Uint8Array(heap.memory.buffer);
  memory.set(request.input, at.input);
  memory.set(request.beside, at.beside);
  putPort(heap.view(), at.port, request.values);
  putPicture(heap.view(), at.picture, request.values);
  putPlan(heap.view(), at.plan, request.values);
  memory.set(DEVICE, at.device);
  call(exports, at, request, lengths);
  return tellOf(heap, at, request.job);
}

// An instance of the module with a heap of its own.
function instanceOf(module) {
  const heap = new Heap();
  const { exports } = new WebAssembly.Instance(module, { heap: heap.imports() });
  heap.bind(exports);
  return { heap, exports };
}

/**
 * Reads words as moments, as the options of the program are read.
 *
 * @param {WebAssembly.Module} module the port's
 * @param {string[]} words
 * @returns {(bigint | null)[]} picoseconds, null where a word is no moment
 */
export function readMoments(module, words) {
  const { heap, exports } = instanceOf(module);
  const told = heap.take(MOMENT);
  return words.map((word) => {
    const octets = new TextEncoder().encode(word);
    const at = heap.take(octets.length);
    if (!told || !at) throw new Error("out of memory");
    new Uint8Array(heap.memory.buffer).set(octets, at);
    exports.taprio_moment(...[at, octets.length, told].map(BigInt));
    heap.give(at);
    const [low, high, is] = [0, 8, 16].map((place) => heap.view().getBigUint64(told + place, true));
    return is ? (high << 64n) + low : null;
  });
}

/**
 * Does a job in an instance of its own, so that nothing is left of a run that was broken off.
 *
 * @param {WebAssembly.Module} module the port's
 * @param {{job: string, input: Uint8Array, beside: Uint8Array, values: object}} request the job, its input, what it has beside
 *   that (the script that goes among the frames of a table of streams, the capture of a replay, the network of paths, the table of streams of bounds or,
 *   where there is one, of frames), and the values of the options: numbers, moments as BigInt or
 *   null, booleans, and classes as a mask or null
 * @returns {{status: number, output: Uint8Array, departures: Uint8Array, fault: string}} as the program would end, write, and say on
 *   its standard error; departures are the capture that a replay writes
 */
export function run(module, request) {
  if (!JOBS.includes(request.job)) throw new Error(`no job ${request.job}`);
  const room = Math.max(LEAST_ROOM, 8 * request.input.length, 2 * request.beside.length);
  const told = runWith(module, request, room);
  return told.status === NO_ROOM ? runWith(module, request, told.wanted) : told;
}
