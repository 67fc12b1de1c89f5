// Whether a browser can run the port.

// A module with one memory of 64-bit addresses.
const WIDE = Uint8Array.of(0, 0x61, 0x73, 0x6d, 1, 0, 0, 0, 5, 3, 1, 4, 1);

/** What runs the port where this browser doesn't. */
export const INSTEAD = "Use Chromium or Chrome 133, Firefox 134, or a later one. The program taprio_port answers the same.";

/** Why this browser can't run the port, or null. */
export function lacking() {
  if (typeof WebAssembly !== "object") return "it has no WebAssembly";
  if (!WebAssembly.validate(WIDE)) return "its WebAssembly has no 64-bit memory";
  return null;
}
