/** The persons of From, To and Cc (RFC 5322, 3.4), and a link by which a reader's own program writes a reply (RFC 6068). */

import { fieldText } from "./parts.js";

const MOST_PERSONS = 200;

/**
 * Returns the persons of a field: { name, address }, `address` null where there is none. What stands in quotes is not cut, and an address
 * is only what stands in `<` and `>` or alone, so that no name passes for one.
 */
export function personsOf(value) {
  const persons = [];
  let name = "", address = null;
  const end = () => {
    if (address !== null) persons.push({ name: name.trim(), address: address.trim() });
    else if (name.trim()) persons.push(personWithoutBrackets(name));
    name = "";
    address = null;
  };
  for (const token of tokensOf(value)) {
    if (persons.length >= MOST_PERSONS) return persons;
    if (token[0] === '"') name += token.replace(/^"|"$/g, "").replace(/\\(.)/g, "$1");
    else if (token[0] === "<") address = token.replace(/^<|>$/g, "");
    else if (token === "," || token === ";") end();
    else if (token === ":" && !name.includes("@")) name = ""; // (the name of a group)
    else name += token;
  }
  end();
  return persons;
}

/** Quoted strings, addresses in brackets, `,` `;` `:`, and what stands between. */
function* tokensOf(value) {
  for (const [token] of value.matchAll(/"(?:[^"\\]|\\.)*"?|<[^>]*>?|[,;:]|[^"<,;:]+/gs)) yield token;
}

/** `anna@example.org (Anna)`, `anna@example.org`, or a name alone. */
function personWithoutBrackets(text) {
  const [, address, comment] = /^\s*([^\s()]+@[^\s()]+)\s*(?:\(([^)]*)\))?\s*$/.exec(text.slice(0, 1000)) ?? [];
  return address ? { name: (comment ?? "").trim(), address } : { name: text.trim(), address: null };
}

/** Returns the Message-ID of a mail with its brackets, or null where it has none that can be used. */
export function messageIdOf(part) {
  return /<[!-;=?-~]{1,500}>/.exec(part.fields.get("message-id") ?? "")?.[0] ?? null;
}

/** Returns where a reply goes: { href, isToList }, or null. It goes to the list that the mail names (RFC 2369), else to its author. */
export function replyTo(part) {
  const list = usable(/<mailto:([^>?]{1,200})/i.exec(fieldStart(part, "list-post"))?.[1]);
  const author = firstAddress(part, "reply-to") ?? firstAddress(part, "from"), to = list ?? author;
  if (!to) return null;
  const subject = fieldText(part, "subject").slice(0, 300), id = messageIdOf(part);
  const fields = [["subject", /^re:/i.test(subject) ? subject : `Re: ${subject}`]];
  if (list && author && author !== list) fields.push(["cc", author]);
  if (id) fields.push(["In-Reply-To", id], ["References", [...referencesOf(part), id].join(" ")]);
  const query = fields.map(([name, value]) => `${name}=${encodeURIComponent(value)}`).join("&");
  return { href: `mailto:${encodeURIComponent(to).replace("%40", "@")}?${query}`, isToList: list !== null };
}

function fieldStart(part, name) {
  return (part.fields.get(name) ?? "").slice(0, 2000);
}

function firstAddress(part, name) {
  return usable(personsOf(fieldStart(part, name))[0]?.address);
}

/** An address that a link can hold as it is; else null. */
function usable(address) {
  return /^[A-Za-z0-9.!#$&'*+/=^_`{|}~-]+@[A-Za-z0-9.-]+$/.test(address ?? "") ? address : null;
}

/** The last of a mail's references: a link has no room for all of a long thread. */
function referencesOf(part) {
  return ((part.fields.get("references") ?? "").match(/<[!-;=?-~]{1,250}>/g) ?? []).slice(-8);
}
