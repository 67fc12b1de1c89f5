// A link that carries what is in the page in its fragment, which no server sees.

const GREATEST_TEXT = 16 << 20; // octets that a link may unfold to

const octetsOf = async (stream) => new Uint8Array(await new Response(stream).arrayBuffer());

/** Octets as base64. */
export function base64Of(octets) {
  let text = "";
  for (let at = 0; at < octets.length; at += 8192) text += String.fromCharCode(...octets.subarray(at, at + 8192));
  return btoa(text);
}

const spell = (octets) => base64Of(octets).replace(/\+/g, "-").replace(/\//g, "_").replace(/=+$/, "");

const unspell = (text) => Uint8Array.from(atob(text.replace(/-/g, "+").replace(/_/g, "/")), (it) => it.charCodeAt(0));

async function pack(text) {
  return spell(await octetsOf(new Blob([text]).stream().pipeThrough(new CompressionStream("deflate-raw"))));
}

// Unfolds no more than a limit, since a short link can hold very much.
async function unpack(text) {
  const reader = new Blob([unspell(text)]).stream().pipeThrough(new DecompressionStream("deflate-raw")).getReader();
  const parts = [];
  let length = 0;
  for (;;) {
    const { done, value } = await reader.read();
    if (done) return new Blob(parts).text();
    length += value.length;
    if (length > GREATEST_TEXT) throw new Error("the link holds too much");
    parts.push(value);
  }
}

const PACKED = ["text", "beside", "other"];

/**
 * The fragment of a link.
 *
 * @param {Record<string, string>} state
 */
export async function writeLink(state) {
  const words = new URLSearchParams();
  for (const [name, value] of Object.entries(state)) {
    words.set(name, PACKED.includes(name) ? await pack(value) : value);
  }
  return `#${words}`;
}

/**
 * What a fragment carries, or null where it carries nothing.
 *
 * @param {string} fragment
 * @returns {Promise<Record<string, string> | null>}
 */
export async function readLink(fragment) {
  const words = new URLSearchParams(fragment.replace(/^#/, ""));
  if (!words.has("text")) return null;
  const state = {};
  for (const [name, value] of words) state[name] = PACKED.includes(name) ? await unpack(value) : value;
  return state;
}
