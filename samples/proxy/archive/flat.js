/** A thread on one page: each message below its row, loaded one after the other. */

import { button, element } from "./elements.js";
import { bytesAt, TooLarge } from "./requests.js";

const MOST_MESSAGES = 50, MOST_BYTES = 1_000_000;

/** Returns a section with a button that shows the messages of these links, each below the row of its link; empty where they are too many. */
export function threadReader(links) {
  const section = element("section", { class: "tools", "aria-label": "Reading" });
  if (links.length === 0 || links.length > MOST_MESSAGES) return section;
  const status = element("span", { role: "status" });
  const start = button([links.length === 1 ? "Read it here" : `Read all ${links.length} here`], async () => {
    status.tabIndex = -1;
    status.focus();
    start.remove();
    for (const [at, link] of links.entries()) {
      status.textContent = `Loading message ${at + 1} of ${links.length}…`;
      link.parentElement.after(element("div", { role: "listitem" }, await shownBelow(link.pathname)));
    }
    status.textContent = links.length === 1 ? "It is below its row." : `All ${links.length} are below their rows.`;
  });
  section.append(start, status);
  return section;
}

/** The message at a path, or why it is not there. */
async function shownBelow(path) {
  try {
    const { articleBelow } = await import("./message.js"), { partOf } = await import("./parts.js");
    return articleBelow(partOf(await bytesAt(path, { most: MOST_BYTES })));
  } catch (error) {
    console.info(String(error));
    const why = error instanceof TooLarge ? "It is large, and has a page of its own." : "It cannot be shown here.";
    return element("p", { class: "soft" }, why);
  }
}
