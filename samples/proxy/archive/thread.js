/** The way through a thread, read from the archive's own page of it (docs/HTTP.md, "Pages"). */

import { element } from "./elements.js";
import { decodeWords, oneLine } from "./words.js";

const ROW = new RegExp('^<div class="d(\\d+)">(?:\\(missing\\)|<a href="[^"]*">([^<]*)</a> (?:\\(none\\)|<a href="[^"]*">([^<]*)</a>) ' +
  '<a href="(/l/[^"/]+/m/([0-9a-f]{64}))">([^<]*)</a> <a href="[^"]*">thread</a>)</div>$', "gm");

/** Returns the rows of a page: { depth, date, author, path, key, subject }; a row for a missing message has no key. */
export function rowsOf(page) {
  return [...page.matchAll(ROW)].map(([, depth, date, author, path, key, subject]) => (
    { date, depth: Number(depth), author: unescaped(author ?? "(none)"), path, key, subject: oneLine(decodeWords(unescaped(subject ?? ""))) }));
}

function unescaped(text) {
  return text.replaceAll("&lt;", "<").replaceAll("&gt;", ">").replaceAll("&quot;", '"').replaceAll("&amp;", "&");
}

/** Returns links from a message to those around it in its thread, of which these are the rows. */
export function threadLinks(rows, key) {
  const at = rows.findIndex(row => row.key === key);
  if (at < 0) return [];
  const messages = rows.filter(row => row.key), place = messages.indexOf(rows[at]);
  const parent = rows.slice(0, at).findLast(row => row.depth < rows[at].depth);
  const links = [
    threadLink(messages[place - 1], "Previous", { rel: "prev", accesskey: "p" }),
    threadLink(messages[place + 1], "Next", { rel: "next", accesskey: "n" }),
    threadLink(parent, "In reply to", { accesskey: "u" }),
  ];
  if (messages.length > 1) links.push(element("span", { class: "soft" }, `message ${place + 1} of ${messages.length} in its thread`));
  return links.filter(link => link !== null);
}

function threadLink(row, label, attributes = {}) {
  if (!row?.key) return null;
  return element("a", { href: row.path, title: `${row.subject.slice(0, 200)} (${row.author})`, ...attributes }, label);
}
