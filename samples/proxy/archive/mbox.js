/** A thread as one mbox (RFC 4155), made in the browser of its messages one after the other. */

import { sentDate } from "./dates.js";
import { button, element, saveFile, sizeText } from "./elements.js";
import { headOf } from "./parts.js";
import { bytesAt } from "./requests.js";

const MOST_MESSAGES = 50, MOST_BYTES = 100_000_000;

/** Returns a section that saves the messages at these paths as one file. */
export function threadSaver(list, paths, fileName) {
  const section = element("section", { class: "tools", "aria-label": "Download" });
  if (paths.length > MOST_MESSAGES) {
    section.append(`This thread has ${paths.length} messages. Up to ${MOST_MESSAGES} can be downloaded as one mbox; all are in `,
      element("a", { href: `/l/${list}/mbox` }, "the mbox of the list"), ".");
    return section;
  }
  const status = element("span", { role: "status" });
  const start = button([`Download as mbox (${paths.length === 1 ? "1 message" : `${paths.length} messages`})`], async () => {
    const stopper = new AbortController(), progress = element("progress", { max: paths.length, value: 0, "aria-label": "Messages loaded" });
    const stop = button(["Stop"], () => stopper.abort());
    section.replaceChildren(progress, stop);
    stop.focus();
    status.textContent = await savedThread(paths, fileName, loaded => { progress.value = loaded; }, stopper.signal);
    section.replaceChildren(start, status);
    start.focus();
  });
  section.append(start, status);
  return section;
}

/** Loads and saves the messages, and returns a sentence that says how it ended; `onLoaded` is told how many there are so far. */
async function savedThread(paths, fileName, onLoaded, signal) {
  const entries = [];
  let size = 0;
  try {
    for (const [at, path] of paths.entries()) {
      const text = await bytesAt(path, { most: MOST_BYTES - size, signal });
      entries.push(separatorOf(text), text, "\n");
      size += text.length;
      onLoaded(at + 1);
    }
  } catch (error) {
    return signal.aborted ? "Stopped; nothing was saved." : `Nothing was saved: ${error.message}.`;
  }
  saveFile(entries, fileName);
  return `Saved as ${fileName}, ${sizeText(size)}.`;
}

/**
 * The separator line of a message. The archive does not tell here who passed it on and when it arrived; so it has the name that mail
 * programs use then, and the date that the message gives.
 */
function separatorOf(text) {
  const { fields } = headOf(text);
  return `From MAILER-DAEMON ${separatorDate(fields.get("date") ?? "")}\n`;
}

/** `Tue Mar  4 10:00:00 2003`, in UTC. */
function separatorDate(written) {
  const date = new Date(sentDate(written) ?? 0);
  const [weekday, day, month, , time] = date.toUTCString().replace(",", "").split(" ");
  return `${weekday} ${month} ${String(Number(day)).padStart(2)} ${time} ${date.getUTCFullYear()}`;
}
