// The fragment of the page's address, in which a machine and a trace travel: nothing of it is sent to a server.

const PREFIX = "#1.";

async function through(bytes, stream) {
  const piped = new Blob([bytes]).stream().pipeThrough(stream);
  return new Uint8Array(await new Response(piped).arrayBuffer());
}

// The letters of base64 that a fragment may have.
function lettersOf(bytes) {
  let text = "";
  for (let at = 0; at < bytes.length; at += 8192) text += String.fromCharCode(...bytes.subarray(at, at + 8192));
  return btoa(text).replace(/\+/g, "-").replace(/\//g, "_").replace(/=+$/, "");
}

const bytesOf = (letters) => Uint8Array.from(atob(letters.replace(/-/g, "+").replace(/_/g, "/")), (it) => it.charCodeAt(0));

/** The fragment that says a value. */
export async function fragmentOf(value) {
  const bytes = new TextEncoder().encode(JSON.stringify(value));
  return PREFIX + lettersOf(await through(bytes, new CompressionStream("deflate-raw")));
}

/** Whether a fragment is one of these, and not a place on the page. */
export const isLink = (fragment) => fragment.startsWith(PREFIX);

/** The value that a fragment says; null where it says none. */
export async function valueOf(fragment) {
  if (!isLink(fragment)) return null;
  try {
    const bytes = await through(bytesOf(fragment.slice(PREFIX.length)), new DecompressionStream("deflate-raw"));
    const value = JSON.parse(new TextDecoder().decode(bytes));
    return typeof value === "object" ? value : null;
  } catch {
    return null;
  }
}
