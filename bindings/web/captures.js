// What a file is, and a capture as the frames of a script, so that a replay can be drawn.

const MAGICS = { a1b2c3d4: { little: false, nano: false }, d4c3b2a1: { little: true, nano: false }, a1b23c4d: { little: false, nano: true }, "4d3cb2a1": { little: true, nano: true } };

const hex = (octets) => [...octets.subarray(0, 4)].map((it) => it.toString(16).padStart(2, "0")).join("");

/**
 * What the octets of a file are: `capture`, `pcapng`, `text`, or why they are none of these.
 *
 * @param {Uint8Array} octets
 * @returns {{kind: "capture" | "pcapng" | "text"} | {kind: "other", why: string}}
 */
export function kindOf(octets) {
  const magic = hex(octets);
  if (MAGICS[magic]) return { kind: "capture" };
  if (magic === "0a0d0d0a") return { kind: "pcapng" };
  if (magic.startsWith("1f8b")) return { kind: "other", why: "this is a gzip file. Unpack it first: gunzip FILE" };
  if (octets.subarray(0, 4096).includes(0)) return { kind: "other", why: "this is neither text nor a classic pcap file." };
  return { kind: "text" };
}

const NETWORK_LINE = /^[ \t]*(?:(?:port|link|clocks)[ \t]|stream[ \t].*[ \t]via[ \t])/m;
const STREAM_LINE = /^[ \t]*stream[ \t]/m;

/** Whether a text has lines that only a network has. */
export const isNetwork = (text) => NETWORK_LINE.test(text);

/** Whether a text has streams, as a table or a network has. */
export const hasStreams = (text) => STREAM_LINE.test(text);

/** What kind of text it is, by its lines. */
export function jobOf(text, now) {
  if (isNetwork(text)) return now === "plan" ? now : "paths";
  if (hasStreams(text)) return ["bounds", "paths", "plan"].includes(now) ? now : "streams";
  if (/^[ \t]*(?:frame|clock|query|count)\b/m.test(text)) return now === "replay" && !/^[ \t]*frame\b/m.test(text) ? "replay" : "script";
  return ["check", "bounds", "paths", "replay", "script"].includes(now) ? now : "check";
}

// The frame of a record, as a replay takes it: IEEE Std 802.1Q-2018, 9.6 has the tag.
function frameOf(octets, original) {
  const tagged = octets.length >= 16 && octets[12] === 0x81 && octets[13] === 0;
  const priority = tagged ? octets[14] >> 5 : 0;
  return { priority, length: Math.max(octets.length, original), tagged };
}

/**
 * The frames of a classic capture by rising moment, as a replay takes them, up to the first record that is cut.
 *
 * @param {Uint8Array} octets
 * @returns {{moment: bigint, priority: number, length: number, tagged: boolean}[]}
 */
export function recordsOf(octets) {
  const form = MAGICS[hex(octets)];
  if (!form || octets.length < 24) return [];
  const view = new DataView(octets.buffer, octets.byteOffset, octets.byteLength);
  const number = (at) => BigInt(view.getUint32(at, form.little));
  const found = [];
  let latest = 0n;
  for (let at = 24; at + 16 <= octets.length; ) {
    const [captured, original] = [view.getUint32(at + 8, form.little), view.getUint32(at + 12, form.little)];
    if (at + 16 + captured > octets.length) break;
    const moment = (number(at) * 1_000_000_000n + number(at + 4) * (form.nano ? 1n : 1000n)) * 1000n;
    if (moment > latest) latest = moment;
    found.push({ moment: latest, ...frameOf(octets.subarray(at + 16, at + 16 + captured), original) });
    at += 16 + captured;
  }
  return found;
}

/**
 * The script that a replay of a capture with a script comes to: the lines by moment, and at one moment before the records.
 *
 * @param {Generator<{line: string}>} lines those of the script
 * @param {ReturnType<typeof recordsOf>} records
 */
export function scriptOfReplay(lines, records) {
  const out = [];
  let [now, next] = [0n, 0];
  // (a record has the number that the report gives it)
  const putUpTo = (upto) => {
    while (next < records.length && (upto === null || records[next].moment < upto)) {
      const { moment, priority, length, tagged } = records[next];
      if (moment > now) {
        out.push(`clock ${moment}`);
        now = moment;
      }
      out.push(`frame ${next} ${priority} ${length}${tagged ? " tagged" : ""}`);
      next += 1;
    }
  };
  for (const { line } of lines) {
    const words = line.split(/[ \t\r]+/).filter(Boolean);
    if (words[0] === "clock" && /^\d+$/.test(words[1] ?? "")) {
      const moment = BigInt(words[1]);
      putUpTo(moment);
      if (moment > now) now = moment;
    }
    out.push(line);
  }
  putUpTo(null);
  return `${out.join("\n")}\n`;
}
