// Moments, in picoseconds, as they are written.

const UNITS = { ps: 1n, ns: 1000n, us: 1_000_000n, ms: 1_000_000_000n, s: 1_000_000_000_000n };

/** The greatest moment, in picoseconds. */
export const GREATEST = 9223372036854775807000n;

/**
 * What is typed as a moment, as the port reads it (`readMoments` of taprio.js): the micro sign and the Greek letter mu are `u`, and its unit
 * may stand apart, as in `20 us`.
 *
 * @param {string} text
 */
export const wordOfMoment = (text) => text.trim().replace(/[µμ]/, "u").replace(/^([\d.]+)\s+([a-z]+)$/, "$1$2");

const sizeOf = (moment) => (moment < 0n ? -moment : moment);

// The greatest unit of which there is at least one.
const unitOf = (length) => Object.keys(UNITS).reverse().find((it) => length >= UNITS[it]) ?? "ps";

// A moment in a unit, exactly.
function inUnit(moment, name) {
  const [length, unit] = [sizeOf(moment), UNITS[name]];
  const digits = String(unit).length - 1;
  const rest = String(length % unit).padStart(digits, "0").replace(/0+$/, "");
  return `${moment < 0n ? "-" : ""}${length / unit}${digits && rest ? `.${rest}` : ""} ${name}`;
}

/**
 * A moment in the greatest unit that it has at least one of, exactly.
 *
 * @param {bigint} moment
 */
export const writeMoment = (moment) => inUnit(moment, unitOf(sizeOf(moment)));

/**
 * Round moments to mark on an axis, counted from an origin: at most so many, with their texts in one unit.
 *
 * @param {{from: bigint, to: bigint}} shown
 * @param {bigint} origin
 * @param {number} most
 * @returns {{at: bigint, text: string}[]}
 */
export function ticks({ from, to }, origin, most) {
  const length = to - from;
  let step = 1n;
  for (let k = 0; step * BigInt(most) < length; k += 1) step = [1n, 2n, 5n][k % 3] * 10n ** BigInt(Math.floor(k / 3));
  const first = from - origin;
  let at = first - (((first % step) + step) % step);
  if (at < first) at += step;
  const unit = unitOf(sizeOf(at) > step * 1000n ? step * 1000n : sizeOf(to - origin) || step);
  const found = [];
  for (; at <= to - origin; at += step) found.push({ at: at + origin, text: at === 0n ? "0" : inUnit(at, unit) });
  return found;
}
