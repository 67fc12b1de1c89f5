// Captures in pcapng (draft-ietf-opsawg-pcapng) as the classic pcap that a replay reads, by the definitions in crates/pcapng/specs: the rule of
// the program's --format auto, and of bindings/python/taprio/pcapng.py. tests/imports/pcapng.toml has cases that all three are tried on.

const SECTION = 0x0a0d0d0a; // (it reads the same in both orders)
const INTERFACE = 1;
const OBSOLETE = 2;
const SIMPLE = 3;
const ENHANCED = 6;
// The fewest octets of the blocks that are read. Others have 12, and are passed over.
const FEWEST_OCTETS = { [SECTION]: 28, [INTERFACE]: 20, [OBSOLETE]: 32, [SIMPLE]: 16, [ENHANCED]: 32 };
const MOST_BLOCK_OCTETS = 524288;
const MOST_RECORD_OCTETS = 262144;
const MOST_INTERFACES = 256;
const IS_LITTLE = { 0x1a2b3c4d: false, 0x4d3c2b1a: true }; // how a section spells its order
const RESOLUTION = 9; // the option that says how many ticks a second has
const OFFSET = 14; // and the one that says which second moments count from
const ETHERNET = 1;
const SECOND = 1_000_000_000n; // nanoseconds
const MOST_SECONDS = 2n ** 32n;

/** Why a capture can't be read. */
export class BadCapture extends Error {}

// The name of a block's fault.
class BlockFault extends Error {}

function faultIf(isBad, name) {
  if (isBad) throw new BlockFault(name);
}

// The first block of a view, in a section of this order, or before the first one: what it is, its order, and its octets.
function blockOf(view, order) {
  faultIf(view.byteLength < 12, "ShortBlock");
  const isSection = view.getUint32(0) === SECTION;
  const little = isSection ? IS_LITTLE[view.getUint32(8)] : order;
  faultIf(little === undefined, isSection ? "BadByteOrder" : "NotPcapng");
  const [kind, length] = [view.getUint32(0, little), view.getUint32(4, little)];
  faultIf(length < (FEWEST_OCTETS[kind] ?? 12) || length % 4, "BadLength");
  faultIf(kind in FEWEST_OCTETS && length > MOST_BLOCK_OCTETS, "LongRecord");
  faultIf(view.byteLength < length, "ShortBlock");
  faultIf(view.getUint32(length - 4, little) !== length, "BadLength");
  return { kind, little, view: new DataView(view.buffer, view.byteOffset, length) };
}

// A power of 2 where the first bit is set, and else of 10.
const ticksOf = (octet) => (octet & 128 ? 2n : 10n) ** BigInt(octet & 127);

// The link type of an interface, its snap length, how many ticks a second has, and from which second moments count. Of two options of a kind
// the last one counts.
function interfaceOf({ view, little }) {
  const found = { link: view.getUint16(8, little), snap: view.getUint32(12, little), ticks: 1_000_000n, offset: 0n };
  const end = view.byteLength - 4;
  for (let at = 16; at < end; ) {
    const [code, length] = [view.getUint16(at, little), view.getUint16(at + 2, little)];
    if (code === 0) break;
    faultIf(at + 4 + length > end, "BadOption");
    faultIf((code === RESOLUTION && length !== 1) || (code === OFFSET && length !== 8), "BadOption");
    if (code === RESOLUTION) found.ticks = ticksOf(view.getUint8(at + 4));
    else if (code === OFFSET) found.offset = view.getBigInt64(at + 4, little);
    at += 4 + 4 * Math.ceil(length / 4);
  }
  return found;
}

// A packet with so many captured ones of the octets from here to the end of its block.
function packetOf(view, begin, { moment, isRounded, captured, original }) {
  faultIf(captured > MOST_RECORD_OCTETS, "LongRecord");
  faultIf(captured > view.byteLength - 4 - begin, "BadCaptured");
  faultIf(moment < 0n || moment >= MOST_SECONDS * SECOND, "BadMoment");
  return { moment, isRounded, original, octets: new Uint8Array(view.buffer, view.byteOffset + begin, captured) };
}

// A packet with a time stamp: its moment is rounded down to whole nanoseconds.
function stampedPacket({ ticks, offset }, { view, little }) {
  const number = (at) => view.getUint32(at, little);
  const scaled = ((BigInt(number(12)) << 32n) + BigInt(number(16))) * SECOND;
  const moment = scaled / ticks + offset * SECOND;
  return packetOf(view, 28, { moment, isRounded: scaled % ticks !== 0n, captured: number(20), original: number(24) });
}

// A simple packet: it has no time stamp, and doesn't say how much of it was captured.
function simplePacket({ snap }, { view, little }) {
  const original = view.getUint32(8, little);
  return packetOf(view, 12, { moment: 0n, isRounded: false, captured: Math.min(original, snap || original), original });
}

// Takes a block into its section, and gives its packet, or nothing where it has none.
function taken(section, block) {
  const { kind, little, view } = block;
  const ofInterface = (number, packet) => {
    const its = section.interfaces[number];
    faultIf(!its, "NoInterface");
    faultIf(its.link !== ETHERNET, `BadLink ${its.link}`);
    return packet(its, block);
  };
  if (kind === SECTION) {
    faultIf(view.getUint16(12, little) !== 1, "BadVersion");
    Object.assign(section, { order: little, interfaces: [] });
  } else if (kind === INTERFACE) {
    faultIf(section.interfaces.length >= MOST_INTERFACES, "TooManyInterfaces");
    section.interfaces.push(interfaceOf(block));
  } else if (kind === SIMPLE) return ofInterface(0, simplePacket);
  else if (kind === OBSOLETE) return ofInterface(view.getUint16(8, little), stampedPacket);
  else if (kind === ENHANCED) return ofInterface(view.getUint32(8, little), stampedPacket);
  return null;
}

function packetsOf(octets) {
  const section = { order: undefined, interfaces: [] };
  const found = [];
  for (let [number, at] = [0, 0]; at < octets.byteLength; number += 1) {
    try {
      const block = blockOf(new DataView(octets.buffer, octets.byteOffset + at, octets.byteLength - at), section.order);
      const packet = taken(section, block);
      if (packet) found.push(packet);
      at += block.view.byteLength;
    } catch (error) {
      throw error instanceof BlockFault ? new BadCapture(`capture block ${number} at octet ${at}: ${error.message}`) : error;
    }
  }
  return found;
}

/**
 * A classic pcap of a capture in pcapng: little-endian, with nanoseconds.
 *
 * @param {Uint8Array} octets
 * @returns {{octets: Uint8Array, packets: number, isRounded: boolean}} whether moments were rounded down to whole nanoseconds
 * @throws {BadCapture} where it can't be read: which block, and the name of its fault, as the program says it
 */
export function classicOf(octets) {
  const packets = packetsOf(octets);
  const made = new Uint8Array(packets.reduce((sum, it) => sum + 16 + it.octets.length, 24));
  const view = new DataView(made.buffer);
  const put = (at, ...values) => values.forEach((it, place) => view.setUint32(at + 4 * place, it, true));
  put(0, 0xa1b23c4d, 0x00040002, 0, 0, MOST_RECORD_OCTETS, ETHERNET);
  let at = 24;
  for (const { moment, original, octets: its } of packets) {
    put(at, Number(moment / SECOND), Number(moment % SECOND), its.length, original);
    made.set(its, at + 16);
    at += 16 + its.length;
  }
  return { octets: made, packets: packets.length, isRounded: packets.some((it) => it.isRounded) };
}
