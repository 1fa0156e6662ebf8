/** Elements of the reader's view. All text of a mail enters a page here, and as text nodes alone. */

import { blocksOf, endOfShown, webAddressesIn } from "./text.js";

const MOST_LINKS = 2000, LONG_QUOTE = 12;

/** Returns an element with attributes and children; a child that is a string becomes text, and an empty one or null is left out. */
export function element(tag, attributes = {}, ...children) {
  const made = document.createElement(tag);
  for (const [name, value] of Object.entries(attributes)) made.setAttribute(name, value);
  made.append(...children.filter(child => child !== null && child !== ""));
  return made;
}

/** Returns a button. */
export function button(children, onClick) {
  const made = element("button", { type: "button" }, ...children);
  made.addEventListener("click", onClick);
  return made;
}

/** Returns an element that opens, and makes what is in it when it first does. */
export function folded(summary, makeContent, isOpen = false) {
  const details = element("details", {}, element("summary", {}, ...summary));
  details.addEventListener("toggle", () => details.append(makeContent()), { once: true });
  details.open = isOpen;
  return details;
}

/** Has the browser save bytes as a file. Their type is none that it would open, as that would be a page of the archive's own origin. */
export function saveFile(pieces, name) {
  const href = URL.createObjectURL(new Blob(pieces, { type: "application/octet-stream" }));
  element("a", { href, download: name }).click();
  setTimeout(() => URL.revokeObjectURL(href), 60_000);
}

/** Returns a number of bytes for people. */
export function sizeText(bytes) {
  if (bytes < 1000) return `${bytes} bytes`;
  return bytes < 1_000_000 ? `${(bytes / 1000).toFixed(1)} kB` : `${(bytes / 1_000_000).toFixed(1)} MB`;
}

/**
 * Returns a section that shows a plain text: quotes by their depth, the signature, web addresses as links. Of a long text the rest comes
 * when it is asked for.
 */
export function textSection(text, form = { flowed: false, delSp: false }) {
  const end = endOfShown(text), section = element("section", { class: "text" }, ...textElements(text.slice(0, end), form));
  if (end === text.length) return section;
  const more = button([`Show the rest of this text (${sizeText(text.length - end)})`], () => {
    const pieces = restElements(text, end);
    more.replaceWith(...pieces);
    pieces[0].tabIndex = -1;
    pieces[0].focus();
  });
  section.append(more);
  return section;
}

/** The text from `start` on, in pieces that the browser lays out as they come into sight. */
function restElements(text, start) {
  const pieces = [];
  for (let at = start; at < text.length;) {
    const end = endOfShown(text, at);
    pieces.push(element("pre", { class: "rest", dir: "auto" }, text.slice(at, end)));
    at = end;
  }
  return pieces;
}

function textElements(text, form) {
  const root = document.createDocumentFragment(), open = [root], left = { links: MOST_LINKS };
  for (const block of blocksOf(text, form)) {
    while (open.length > block.depth + 1) open.pop();
    while (open.length < block.depth + 1) {
      const quote = element("blockquote");
      open.at(-1).append(quote);
      open.push(quote);
    }
    const attributes = block.isSignature ? { class: "signature", dir: "auto" } : { dir: "auto" };
    open.at(-1).append(element("pre", attributes, ...linked(block.text, left)));
  }
  foldQuotes([...root.children]);
  return root.childNodes;
}

/** Makes long quotes fold. One that only a signature follows is folded at first, as there the mail quotes all that it answers. */
function foldQuotes(blocks) {
  const said = blocks.filter(block => block.className !== "signature" && block.textContent.trim() !== "");
  const last = said.length > 1 ? said.at(-1) : null;
  for (const quote of said.filter(block => block.localName === "blockquote")) {
    const lines = quote.textContent.split("\n").length - 1;
    if (lines > LONG_QUOTE) fold(quote, lines, quote !== last);
  }
}

function fold(quote, lines, isOpen) {
  const details = element("details", { class: "quote" }, element("summary", {}, `${lines} quoted lines`));
  details.open = isOpen;
  quote.replaceWith(details);
  details.append(quote);
}

/** A text with its web addresses as links, as many as are left. */
function linked(text, left) {
  const pieces = [];
  let end = 0;
  for (const { at, address, url } of webAddressesIn(text)) {
    if (left.links-- <= 0) break;
    pieces.push(text.slice(end, at), element("a", { href: url, rel: "noopener noreferrer nofollow" }, address));
    end = at + address.length;
  }
  return [...pieces, text.slice(end)];
}
