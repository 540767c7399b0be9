// A text in the fragment of an address: deflated, in the URL's base 64. Nothing of it is sent.

const FORM = "deflate-raw";
export const MOST = 1_000_000;
const KINDS = {s: "scenario", h: "history"};

/** All bytes of a stream; none where there are more than `MOST`. */
async function gathered(stream) {
  const parts = [];
  let length = 0;
  for (const reader = stream.getReader(); ; ) {
    const {done, value} = await reader.read();
    if (done) break;
    parts.push(value);
    length += value.length;
    if (length > MOST) {
      reader.cancel();
      return null;
    }
  }
  return new Uint8Array(await new Blob(parts).arrayBuffer());
}

/** The fragment with a text of a kind. */
export async function fragment(kind, text) {
  const packed = await gathered(new Blob([text]).stream().pipeThrough(new CompressionStream(FORM)));
  let binary = "";
  for (const byte of packed) binary += String.fromCharCode(byte);
  return `${kind[0]}=${btoa(binary).replace(/\+/g, "-").replace(/\//g, "_").replace(/=+$/, "")}`;
}

/** The kind and the text of a fragment; none where it has no text, or one that can't be read. */
export async function opened(hash) {
  const found = /^#?([sh])=([\w-]*)$/.exec(hash);
  if (!found) return null;
  try {
    const binary = atob(found[2].replace(/-/g, "+").replace(/_/g, "/"));
    const packed = Uint8Array.from(binary, (it) => it.charCodeAt(0));
    const bytes = await gathered(new Blob([packed]).stream().pipeThrough(new DecompressionStream(FORM)));
    return bytes && {kind: KINDS[found[1]], text: new TextDecoder("utf-8", {fatal: true}).decode(bytes)};
  } catch {
    return null;
  }
}
