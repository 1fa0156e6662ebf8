/** Pages of rows: decoded subjects and names, and ways that the archive has no pages for. */

import { readersTime, rowDate } from "./dates.js";
import { element } from "./elements.js";
import { threadReader } from "./flat.js";
import { threadSaver } from "./mbox.js";
import { decodeWords, oneLine } from "./words.js";

const ROWS_AT_FIRST = 2000, ROWS_AT_ONCE = 10_000, ROWS_IN_PIECE = 200;

/** Makes a page of rows readable; `main` holds its heading, and its rows in a div. */
export function showRows(main) {
  const list = main.querySelector("h1 + div"), rows = [...list.children];
  decodeText(main.querySelector("h1"));
  document.title = decoded(document.title);
  putInto(list, rows);
  list.setAttribute("role", "list");
  const [, name, page, rest] = /^\/l\/([^/]+)\/(threads|month|t)(?:\/([^/]+))?$/.exec(location.pathname) ?? [];
  if (page === "threads" && rows.length > 0) list.before(threadsNavigation(list, rows));
  if (page === "month") list.before(monthNavigation(name, rest));
  if (page === "t") {
    const links = messageLinksIn(list);
    list.before(threadSaver(name, links.map(link => link.pathname), `thread-${rest.slice(0, 16)}.mbox`), threadReader(links));
  }
  for (const event of ["pointerover", "focusin"]) list.addEventListener(event, addReadersTime);
  decodeRows(rows);
}

function messageLinksIn(list) {
  return [...list.querySelectorAll('a[href*="/m/"]')].filter(link => /^\/l\/[^/]+\/m\/[0-9a-f]{64}$/.test(link.pathname));
}

/**
 * Puts rows into a list. Many go into pieces, of which the browser lays out those in sight alone (archive.css). The list is out of the page
 * meanwhile, because for each row that leaves a page the browser looks at all rows that follow.
 */
function putInto(list, rows) {
  if (rows.length <= ROWS_IN_PIECE) return list.replaceChildren(...rows);
  const place = document.createComment(""), pieces = [];
  list.replaceWith(place);
  for (let at = 0; at < rows.length; at += ROWS_IN_PIECE) pieces.push(element("div", {}, ...rows.slice(at, at + ROWS_IN_PIECE)));
  list.replaceChildren(...pieces);
  place.replaceWith(list);
}

/** Decodes the rows, first the topmost and then the others, some thousands at a time, so that a page of 50,000 can be used meanwhile. */
async function decodeRows(rows) {
  rows.slice(0, ROWS_AT_FIRST).forEach(decodeRow);
  for (let at = ROWS_AT_FIRST; at < rows.length; at += ROWS_AT_ONCE) {
    await new Promise(resolve => setTimeout(resolve));
    rows.slice(at, at + ROWS_AT_ONCE).forEach(decodeRow);
  }
}

function decodeRow(row) {
  row.setAttribute("role", "listitem");
  row.setAttribute("aria-level", Number(row.className.slice(1)) + 1);
  for (let link = row.firstElementChild; link; link = link.nextElementSibling) decodeText(link);
}

/** What a text from right to left has a letter of. */
const MAYBE_FROM_RIGHT = /[\u0590-\u08ff\u200f\ufb1d-\ufdff\ufe70-\ufeff\u{10800}-\u{10fff}\u{1e800}-\u{1efff}]/u;

/** Decodes the text of an element that has encoded words. */
function decodeText(holder) {
  const node = holder.firstChild;
  if (node?.nodeType !== Node.TEXT_NODE || !node.data.includes("=?")) return;
  const text = decoded(node.data);
  node.data = text;
  if (MAYBE_FROM_RIGHT.test(text)) holder.dir = "auto";
}

const known = new Map(); // (by what it was decoded from: the rows of a thread have few subjects)

function decoded(text) {
  if (!known.has(text)) known.set(text, oneLine(decodeWords(text)));
  return known.get(text);
}

/** Gives the date that the pointer or the keyboard is on a title with the reader's own time. It is made then, as a page may have many. */
function addReadersTime({ target }) {
  const instant = target.localName === "a" && !target.title ? rowDate(target.textContent) : null;
  if (instant !== null) target.title = readersTime(instant);
}

/** The months of a list, and a link that puts the threads with the newest messages first. */
function threadsNavigation(list, rows) {
  const order = element("a");
  const sort = () => {
    const isNewestFirst = location.hash === "#newest";
    if (isNewestFirst) putInto(list, threadsOf(rows).sort(byNewest).flatMap(thread => thread.rows));
    else if (order.hash) putInto(list, rows);
    order.setAttribute("href", isNewestFirst ? "#oldest" : "#newest");
    order.textContent = isNewestFirst ? "Oldest first" : "Newest first";
  };
  sort();
  addEventListener("hashchange", sort);
  return element("nav", { "aria-label": "Order and months" }, order, monthsOf(rows));
}

/** The threads of rows, each with its rows and the date of its newest message. */
function threadsOf(rows) {
  const threads = [];
  for (const row of rows) {
    if (row.className === "d0") threads.push({ rows: [], newest: "" });
    const thread = threads.at(-1), date = dateLinkOf(row)?.textContent ?? "";
    thread.rows.push(row);
    if (date > thread.newest) thread.newest = date;
  }
  return threads;
}

function byNewest(one, other) {
  if (one.newest === other.newest) return 0;
  return one.newest < other.newest ? 1 : -1;
}

/** The link of a row's date, which is its first; null in the row of a missing message. */
function dateLinkOf(row) {
  return row.childElementCount > 2 ? row.firstChild : null;
}

function monthsOf(rows) {
  const months = new Set(rows.map(row => dateLinkOf(row)?.getAttribute("href")));
  months.delete(undefined);
  const links = [...months].sort().reverse().map(href => element("li", {}, element("a", { href }, href.slice(-7))));
  const title = links.length === 1 ? "1 month" : `${links.length} months`;
  return element("details", { class: "months" }, element("summary", {}, title), element("ul", {}, ...links));
}

/** Links from a month to those beside it. */
function monthNavigation(list, month) {
  const [year, number] = month.split("-").map(Number);
  const link = (date, label, rel) => element("a", { href: `/l/${list}/month/${date.toISOString().slice(0, 7)}`, rel }, label);
  return element("nav", { "aria-label": "Months" },
    link(new Date(Date.UTC(year, number - 2)), "Previous month", "prev"), link(new Date(Date.UTC(year, number)), "Next month", "next"));
}
