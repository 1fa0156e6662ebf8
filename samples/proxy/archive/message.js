/** The page of a message: its head, its text, its attachments, and what a reader can do with it. */

import { base64Size, binaryOf, bytesOf } from "./bytes.js";
import { eventOf } from "./calendar.js";
import { readersLanguage, readersTime, rowDate, sentDate } from "./dates.js";
import { button, element, folded, saveFile, sizeText, textSection } from "./elements.js";
import { textOfHtml } from "./html.js";
import { charsetOf, contentOf, fieldText, partOf, partText, shownOf } from "./parts.js";
import { messageIdOf, personsOf, replyTo } from "./persons.js";
import { bytesAt, TooLarge } from "./requests.js";
import { rowsOf, threadLinks } from "./thread.js";
import { decodeWords, isUnknownCharset, oneLine, textOf } from "./words.js";

const LARGE_MAIL = 8_000_000, LARGE_THREAD_PAGE = 4_000_000, LARGE_HTML = 2_000_000;

/**
 * Puts a message in the place of what `main` holds, a heading and the frame with the message as it came. The frame does not load
 * meanwhile (archive.css), and it comes back where the message cannot be had or read.
 */
export async function showMessage(main, frame, list, key) {
  const status = element("section", { role: "status" }, "Loading the message…");
  frame.replaceWith(status);
  try {
    const mail = await loadedMail(`/l/${list}/m/${key}`, status);
    main.replaceChildren(...messageElements(mail, list, key));
    document.title = `${main.querySelector("h1").textContent.slice(0, 200)} (${list})`;
  } catch (error) {
    console.info(String(error));
    frame.className = "now";
    status.replaceWith(frame);
    return;
  }
  await addOfThread(main, list, key);
}

/** The mail at a path; a large one once the reader has asked for it. */
async function loadedMail(path, status) {
  const options = { most: LARGE_MAIL };
  for (;;) {
    try {
      const mail = partOf(await bytesAt(path, options));
      if (mail.fields.size === 0) throw new Error(`${path}: no header`);
      return mail;
    } catch (error) {
      if (!(error instanceof TooLarge)) throw error;
      await wanted(error.size, status);
      options.most = Infinity;
    }
  }
}

/** Says that a mail is large, and waits until the reader asks for it. */
function wanted(size, status) {
  return new Promise(resolve => {
    const show = button(["Show it"], () => {
      status.replaceChildren("Loading the message…");
      resolve();
    });
    status.replaceChildren(
      element("p", {}, `This message has ${sizeText(size)}. Showing it takes a while.`),
      element("section", { class: "tools", "aria-label": "Actions" }, show, ...rawLinks()));
  });
}

function rawLinks() {
  return [element("a", { href: "?text" }, "Raw message"), element("a", { href: "?text", download: "message.eml" }, "Download")];
}

/** Adds what the page of the thread tells, where it can be had: the ways to other messages, and when a message without a date arrived. */
async function addOfThread(main, list, key) {
  try {
    const rows = rowsOf(binaryOf(await bytesAt(`/l/${list}/t/${key}`, { most: LARGE_THREAD_PAGE })));
    main.querySelector("nav").prepend(...threadLinks(rows, key));
    const head = main.querySelector("dl"), arrival = rowDate(rows.find(row => row.key === key)?.date ?? "");
    if (!head.querySelector("time") && arrival !== null) addField(head, "Arrived", [timeElement(arrival)]);
  } catch (error) {
    console.info(String(error));
  }
}

/** Returns the view of a mail. */
export function messageElements(mail, list, key) {
  const [subject, head] = headElements(mail, "h1"), id = messageIdOf(mail);
  if (id) head.append(element("dt", {}, "Message-ID"), element("dd", { class: "address" }, idLink(list, id)));
  const thread = element("nav", { "aria-label": "Thread" }, element("a", { href: `/l/${list}/t/${key}`, accesskey: "t" }, "Whole thread"));
  const article = element("article", languageOf(mail), ...mailElements(mail, 1));
  return [subject, head, thread, toolElements(mail, `${location.origin}/l/${list}/m/${key}`), article];
}

/** A Message-ID, which is a link where the proxy leads to a search (samples/search). */
function idLink(list, id) {
  if (!document.querySelector(`nav a[href="/l/${list}/search"]`)) return id;
  return element("a", { href: `/l/${list}/id/${encodeURIComponent(id.slice(1, -1))}` }, id);
}

/** Returns the head and the text of a mail, to be read below its row, which has the subject. */
export function articleBelow(mail) {
  const [, head] = headElements(mail, "h2");
  return element("article", { class: "below", ...languageOf(mail) }, head, ...mailElements(mail, 2));
}

function languageOf(mail) {
  const lang = /^[ \t]*([a-z]{2,3}(?:-[a-z0-9]{2,8})*)[ \t]*(?:,|$)/i.exec((mail.fields.get("content-language") ?? "").slice(0, 100))?.[1];
  return lang ? { lang } : {};
}

function toolElements(mail, permanentLink) {
  const status = element("span", { role: "status" }), reply = replyTo(mail), id = messageIdOf(mail);
  return element("section", { class: "tools", "aria-label": "Actions" },
    reply && element("a", { href: reply.href, accesskey: "r" }, reply.isToList ? "Reply to list" : "Reply"),
    ...rawLinks(),
    copyButton("Copy permanent link", permanentLink, status),
    id && copyButton("Copy Message-ID", id, status),
    status);
}

function copyButton(label, text, status) {
  return button([label], async () => {
    try {
      await navigator.clipboard.writeText(text);
      status.textContent = "Copied.";
    } catch {
      status.textContent = "This browser does not allow copying.";
    }
  });
}

/** A heading with the subject, and a list with who wrote it to whom and when. */
function headElements(part, heading) {
  const list = element("dl");
  for (const name of ["From", "To", "Cc"]) addField(list, name, personElements(part.fields.get(name.toLowerCase()) ?? "", part.charset));
  addField(list, "Date", dateElements(part.fields.get("date") ?? ""));
  return [element(heading, { dir: "auto" }, fieldText(part, "subject") || "(no subject)"), list];
}

function addField(list, name, children) {
  if (children.some(child => child !== "")) list.append(element("dt", {}, name), element("dd", {}, ...children));
}

/** The persons of a field, of many the first six; names and addresses apart, so that no name passes for an address. */
function personElements(value, hint) {
  const persons = personsOf(textOf(bytesOf(value.slice(0, 20_000)), "", hint)).map(({ name, address }) => {
    const shownName = oneLine(decodeWords(name)).slice(0, 300), shownAddress = oneLine(address ?? "").slice(0, 300);
    if (!shownName) return [element("bdi", {}, shownAddress)];
    return address === null ? [element("bdi", {}, shownName)] : [element("bdi", {}, shownName), " ", element("bdi", { class: "address" }, `<${shownAddress}>`)];
  });
  const listed = those => those.flatMap((person, at) => at > 0 ? [", ", ...person] : person);
  if (persons.length < 9) return listed(persons);
  return [...listed(persons.slice(0, 6)), element("details", {}, element("summary", {}, `and ${persons.length - 6} more`), ...listed(persons.slice(6)))];
}

/** A date in the reader's own time and language, followed by the date as it was written; another text stays as it was written. */
function dateElements(value) {
  const written = oneLine(value).slice(0, 100), instant = sentDate(value);
  return instant === null ? [written] : [timeElement(instant), " ", element("span", { class: "soft" }, `(${written})`)];
}

function timeElement(instant) {
  const text = readersTime(instant);
  return element("time", { datetime: new Date(instant).toISOString(), lang: readersLanguage() }, text);
}

/** The texts, notes and attachments of a mail; `level` is that of the heading above. */
function mailElements(mail, level) {
  const shown = shownOf(mail), files = shown.filter(([how]) => how === "file").map(([, part]) => part);
  const notes = notesOn(mail, shown).map(note => element("p", { class: "soft" }, note));
  return [...notes, ...shown.flatMap(([how, part]) => shownElements(how, part, level)), ...fileSection(files, level + 1)];
}

function shownElements(how, part, level) {
  switch (how) {
    case "text": return [...nameElements(part), textSection(partText(part), formOf(part))];
    case "html": return [element("p", { class: "soft" }, "This text was written as HTML; it is shown without its layout."), htmlSection(part)];
    case "alternative": return [folded(["The same text, as it was written in HTML"], () => htmlSection(part))];
    case "calendar": return calendarElements(part);
    case "mail": return [element("article", { class: "mail" }, ...headElements(part.mail, headingAt(level + 1)), ...mailElements(part.mail, level + 1))];
    default: return [];
  }
}

/** Above a text that has a name, a button that saves it. */
function nameElements(part) {
  return part.file ? [element("p", { class: "soft" }, saveButton(part), ` ${part.type}, ${sizeText(sizeOf(part))}`)] : [];
}

const METHODS = new Map([
  ["request", "An invitation."], ["cancel", "An event that is cancelled."], ["reply", "An answer to an invitation."], ["counter", "A proposal to change an event."],
]);

/** The event of a calendar, or, where it has none, its text. Either can be saved. */
function calendarElements(part) {
  const event = eventOf(partText(part));
  if (event === null) return [...nameElements(part), textSection(partText(part), formOf(part))];
  const list = element("dl");
  const fields = { What: event.summary, Begins: event.start, Ends: event.end, Takes: event.duration, Repeats: event.rule, Where: event.location, "Invited by": event.organizer };
  for (const [name, value] of Object.entries(fields)) addField(list, name, value ? [element("bdi", {}, oneLine(value))] : []);
  const method = METHODS.get(event.method.toLowerCase()) ?? "An event.";
  return [element("section", { class: "event", "aria-label": "Event" }, element("p", { class: "soft" }, method), list, element("ul", {}, fileElement(part)))];
}

function headingAt(level) {
  return `h${Math.min(level, 6)}`;
}

function formOf({ type, content: { parameters } }) {
  const isYes = (name, value) => parameters.get(name)?.toLowerCase() === value;
  return { flowed: type === "text/plain" && isYes("format", "flowed"), delSp: isYes("delsp", "yes") };
}

function htmlSection(part) {
  return textSection(textOfHtml(partText(part).slice(0, LARGE_HTML)));
}

const ENCRYPTED = "This message is encrypted.";

/** What S/MIME says of a message by `smime-type` (RFC 8551, 3.2.2). */
const NOTES_ON_SMIME = new Map([
  ["enveloped-data", ENCRYPTED], ["authenveloped-data", ENCRYPTED],
  ["signed-data", "This message is signed (S/MIME). The signature was not checked, and the text inside it is not shown."],
  ["compressed-data", "This message is compressed (S/MIME). The text inside it is not shown."],
  ["certs-only", "This message holds certificates (S/MIME) and no text."],
]);
const NOTE_ON_SMIME = "This message is signed or encrypted (S/MIME). What is inside is not shown.";

/** What a reader has to know of how a mail is shown. */
function notesOn(mail, shown) {
  const notes = [];
  const isSigned = mail.type === "multipart/signed" || shown.some(([, part]) => part.type === "application/pgp-signature");
  if (isSigned) notes.push("This message is signed. The signature was not checked.");
  if (mail.type === "multipart/encrypted") notes.push(ENCRYPTED);
  const sealed = shown.find(([, part]) => /^application\/(?:x-)?pkcs7-mime$/.test(part.type))?.[1];
  if (sealed) notes.push(NOTES_ON_SMIME.get(sealed.content.parameters.get("smime-type")?.toLowerCase()) ?? NOTE_ON_SMIME);
  const charsets = shown.filter(([how]) => how === "text" || how === "html").map(([, part]) => charsetOf(part)).filter(isUnknownCharset);
  for (const charset of new Set(charsets)) {
    notes.push(`This browser does not know the charset ${oneLine(charset)}: letters beyond plain English may be wrong.`);
  }
  return notes;
}

function fileSection(files, level) {
  if (files.length === 0) return [];
  const title = files.length === 1 ? "Attachment" : `${files.length} attachments`;
  return [element("section", { class: "files" }, element(headingAt(level), {}, title), element("ul", {}, ...files.map(fileElement)))];
}

/** A part to be saved; one that is text can be opened here too, and a patch is open. */
function fileElement(part) {
  const name = fileName(part), item = element("li", {}, saveButton(part), ` ${part.type}, ${sizeText(sizeOf(part))}`);
  if (/^text\/|^message\/|^application\/(?:json|xml|x-patch|x-sh)$/.test(part.type)) {
    const makeText = () => part.type === "text/html" ? htmlSection(part) : textSection(partText(part), formOf(part));
    item.append(folded(["Show ", element("bdi", {}, name)], makeText, /^text\/x-(?:patch|diff)$/.test(part.type)));
  }
  return item;
}

function saveButton(part) {
  const name = fileName(part);
  return button(["Save ", element("bdi", {}, name)], () => saveFile([contentOf(part)], name));
}

function sizeOf(part) {
  return part.encoding === "base64" ? base64Size(part.body) : part.body.length;
}

/** The name of a part, or one made of its number; without what separates folders or means something to a system. */
function fileName(part) {
  const name = part.file.replace(/[/\\:*?"<>|\u0000-\u001f]+/g, "_").replace(/^[.\s]+/, "").replace(/^(.{1,100}).*?(\.[^.]{1,16})?$/u, "$1$2").trim();
  if (name) return name;
  if (part.type === "message/rfc822") return `part-${part.number}.eml`;
  if (part.type === "text/calendar") return `part-${part.number}.ics`;
  return `part-${part.number}${part.type.startsWith("text/") ? ".txt" : ".bin"}`;
}
