/**
 * The reader's view of the archive's pages: subjects, names and messages, decoded in the browser.
 *
 * It asks the archive alone, keeps nothing, and puts text into pages as text, never as HTML. Where it does not run, or cannot read a
 * message, the page stays as the proxy sent it.
 */
const { classList } = document.documentElement;

/** Waits until all of the page is there: a module that is `async` may come before. */
function parsed() {
  if (document.readyState !== "loading") return Promise.resolve();
  return new Promise(resolve => document.addEventListener("DOMContentLoaded", resolve, { once: true }));
}

/** Shows the page. It loads the modules of its kind alone. */
async function show() {
  const main = document.querySelector("main"), frame = main?.querySelector("iframe");
  const message = /^\/l\/([^/]+)\/m\/([0-9a-f]{64})$/.exec(location.pathname);
  if (frame && message) {
    const { showMessage } = await import("./archive/message.js");
    showMessage(main, frame, message[1], message[2]);
  } else if (main?.querySelector("h1 + div")) {
    const { showRows } = await import("./archive/rows.js");
    showRows(main);
  }
}

classList.add("scripted"); // (rows wait for this script: archive.css)
try {
  await parsed();
  await show();
} finally {
  classList.remove("scripted");
}
