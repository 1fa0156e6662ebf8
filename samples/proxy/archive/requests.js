/** Requests to the archive, and to nobody else. */

const TRIES = 6, PAUSE = 2000;

/** Says that a reply has more bytes than were asked for: `size` of them. */
export class TooLarge extends Error {
  constructor(path, size) {
    super(`${path}: too large`);
    this.size = size;
  }
}

/**
 * Returns the bytes of a reply. It throws where the archive refuses, and `TooLarge` where its reply has more than `most`: the proxy tells
 * its length before it comes.
 */
export async function bytesAt(path, { most = Infinity, signal } = {}) {
  const reply = await answered(path, signal), size = Number(reply.headers.get("Archive-Length"));
  if (size > most) {
    await reply.body.cancel();
    throw new TooLarge(path, size);
  }
  return new Uint8Array(await reply.arrayBuffer());
}

/** The reply with status 200. Where the proxy counts too many requests (429), or no server runs (503), it is asked for again. */
async function answered(path, signal) {
  for (let tries = TRIES; ; tries--) {
    const reply = await fetch(path, { cache: "no-store", redirect: "error", signal });
    if (reply.status === 200) return reply;
    if (tries === 1 || reply.status !== 429 && reply.status !== 503) throw new Error(`${path}: status ${reply.status}`);
    await pause(signal);
  }
}

/** Waits, until it is stopped. */
function pause(signal) {
  return new Promise((done, stop) => {
    setTimeout(done, PAUSE);
    signal?.addEventListener("abort", () => stop(signal.reason), { once: true });
  });
}
