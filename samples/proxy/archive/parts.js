/** A mail as a tree of parts (RFC 2045, 2046, 2231). Strings here are binary (bytes.js), but for those that are called text. */

import { base64Bytes, binaryOf, bytesOf, quotedPrintableBytes, standsAt, trimmed } from "./bytes.js";
import { charsetName, decodeWords, isUndescribed, oneLine, textOf } from "./words.js";

const MOST_DEPTH = 20, MOST_PARTS = 500, MOST_PARAMETERS = 8000, MOST_FIELD = 2000;

const LF = 10, CR = 13;

/** Returns the header fields of a mail or part by their names in lower case, the first of each name, and where the body begins. */
export function headOf(bytes) {
  const binary = binaryOf(bytes.subarray(0, emptyLineEnd(bytes))), fields = new Map();
  let at = 0, name = null;
  while (at < binary.length) {
    const feed = binary.indexOf("\n", at), next = feed < 0 ? binary.length : feed + 1;
    const line = withoutReturn(binary.slice(at, feed < 0 ? next : feed));
    if (line === "") return { fields, body: next };
    const colon = line.indexOf(":");
    if (line[0] === " " || line[0] === "\t") {
      if (name !== null) fields.set(name, fields.get(name) + line);
    } else if (colon > 0 && colon < 100 && /^[!-9;-~]+[ \t]*$/.test(line.slice(0, colon))) {
      const found = line.slice(0, colon).trim().toLowerCase();
      name = fields.has(found) ? null : found;
      if (name !== null) fields.set(name, line.slice(colon + 1));
    } else if (at > 0 || !/^>?From /.test(line)) {
      return { fields, body: at };
    }
    at = next;
  }
  return { fields, body: binary.length };
}

/** Where the first empty line ends: a header goes no further. */
function emptyLineEnd(bytes) {
  for (let start = 0; ;) {
    const feed = bytes.indexOf(LF, start);
    if (feed < 0) return bytes.length;
    if (feed === start || feed === start + 1 && bytes[start] === CR) return feed + 1;
    start = feed + 1;
  }
}

function withoutReturn(line) {
  return line.endsWith("\r") ? line.slice(0, -1) : line;
}

/** Returns the text of a header field, decoded and on one line; empty where it is not there. */
export function fieldText(part, name) {
  const value = (part.fields.get(name) ?? "").slice(0, 4 * MOST_FIELD);
  const text = oneLine(decodeWords(textOf(bytesOf(value), "", part.charset), part.charset));
  return text.length > MOST_FIELD ? `${text.slice(0, MOST_FIELD)}…` : text;
}

/** Returns the value of a structured field, in lower case, and its parameters by their names (RFC 2045, 5.1). */
export function parametersOf(field = "") {
  const text = field.slice(0, MOST_PARAMETERS), parameters = new Map();
  for (const [, name, said] of text.matchAll(/;[ \t\r\n]*([^ \t\r\n=;]+)[ \t\r\n]*=[ \t\r\n]*("(?:[^"\\]|\\.)*"|[^;]*)/g)) {
    const key = name.toLowerCase();
    if (!parameters.has(key)) parameters.set(key, said[0] === '"' ? said.slice(1, -1).replace(/\\(.)/g, "$1") : trimmed(said));
  }
  return { value: trimmed(text.split(";")[0]).toLowerCase(), parameters };
}

/** The text of a parameter: as RFC 2231 writes it, or with encoded words, as many programs do. */
function parameterText({ parameters }, name) {
  const pieces = parameterPieces(parameters, name);
  if (pieces.length === 0) return oneLine(decodeWords(textOf(bytesOf(parameters.get(name) ?? ""), "")));
  let charset = "";
  if (pieces[0].isEncoded) {
    const [named, , ...rest] = pieces[0].text.split("'");
    if (rest.length > 0) [charset, pieces[0].text] = [named, rest.join("'")];
  }
  const binary = pieces.map(({ text, isEncoded }) => isEncoded ? percentDecoded(text) : text).join("");
  return oneLine(textOf(bytesOf(binary), charset));
}

/** The pieces of a parameter in the forms of RFC 2231: `name*`, or `name*0`, `name*1*` and so on. */
function parameterPieces(parameters, name) {
  if (parameters.has(`${name}*`)) return [{ text: parameters.get(`${name}*`), isEncoded: true }];
  const pieces = [];
  for (let at = 0; ; at++) {
    const encoded = parameters.get(`${name}*${at}*`), plain = parameters.get(`${name}*${at}`);
    if (encoded === undefined && plain === undefined) return pieces;
    pieces.push({ text: encoded ?? plain, isEncoded: encoded !== undefined });
  }
}

function percentDecoded(text) {
  return text.replace(/%([0-9a-f]{2})/gi, (_, digits) => String.fromCharCode(parseInt(digits, 16)));
}

/** Returns at most `most` bodies between the delimiter lines of a boundary (RFC 2046, 5.1.1). */
function bodiesBetween(body, boundary, most) {
  const bodies = [];
  let start = -1;
  for (const { at, end, isLast } of delimitersOf(body, `--${boundary}`)) {
    if (start >= 0) bodies.push(body.subarray(start, Math.max(start, at - (body[at - 2] === CR ? 2 : 1))));
    if (isLast || bodies.length >= most) return bodies;
    start = end;
  }
  if (start >= 0 && start < body.length) bodies.push(body.subarray(start));
  return bodies;
}

/** The delimiter lines: where each begins, where the next line begins, and whether it closes the multipart. */
function* delimitersOf(body, dashes) {
  for (let at = 0; at < body.length;) {
    const feed = body.indexOf(LF, at), end = feed < 0 ? body.length : feed + 1;
    if (standsAt(dashes, body, at)) {
      const rest = trimmed(binaryOf(body.subarray(at + dashes.length, Math.min(end, at + dashes.length + 200))));
      if (rest === "" || rest === "--") yield { at, end, isLast: rest === "--" };
    }
    at = end;
  }
}

/**
 * Returns a mail or part: `fields`, `type` (a media type in lower case), `content` and `disposition` (as `parametersOf` gives them),
 * `encoding`, the bytes of its `body`, and the texts `charset` and `file`. A multipart has `parts`, a message in a message `mail`. Parts are numbered as in
 * IMAP. Beyond `MOST_DEPTH` and `MOST_PARTS` what would be a tree stays a body.
 */
export function partOf(bytes, left = { parts: MOST_PARTS }, depth = 0, usualType = "text/plain", number = "1") {
  const { fields, body } = headOf(bytes);
  const content = parametersOf(fields.get("content-type")), disposition = parametersOf(fields.get("content-disposition"));
  const part = {
    fields, number, content, disposition,
    type: /^[\w!#$&^.+-]{1,100}\/[\w!#$&^.+-]{1,100}/.exec(content.value)?.[0] ?? usualType,
    encoding: trimmed(fields.get("content-transfer-encoding") ?? "").toLowerCase(),
    body: bytes.subarray(body),
    charset: charsetName(parameterText(content, "charset")),
    file: parameterText(disposition, "filename") || parameterText(content, "name"),
  };
  left.parts--;
  if (depth < MOST_DEPTH && left.parts > 0) addInner(part, left, depth + 1);
  return part;
}

function addInner(part, left, depth) {
  const boundary = trimmed(part.content.parameters.get("boundary") ?? "");
  if (part.type.startsWith("multipart/") && boundary) {
    const usualType = part.type === "multipart/digest" ? "message/rfc822" : "text/plain";
    const parts = [];
    for (const body of bodiesBetween(part.body, boundary, left.parts)) {
      if (left.parts > 0) parts.push(partOf(body, left, depth, usualType, `${part.number}.${parts.length + 1}`));
    }
    if (parts.length > 0) part.parts = parts;
  } else if (part.type === "message/rfc822" || part.type === "message/global") {
    part.mail = partOf(contentOf(part), left, depth, "text/plain", `${part.number}.1`);
  }
}

/** Returns the bytes that a part stands for. */
export function contentOf(part) {
  if (part.encoding === "base64") return base64Bytes(part.body);
  return part.encoding === "quoted-printable" ? quotedPrintableBytes(part.body) : part.body;
}

/** Returns the text of a part. */
export function partText(part) {
  return textOf(contentOf(part), charsetOf(part));
}

/** Returns the charset of a part: the one that its header names, or, of HTML without one, the one that its own beginning names. */
export function charsetOf(part) {
  if (part.type !== "text/html" || !isUndescribed(part.charset)) return part.charset;
  const start = binaryOf(contentOf({ ...part, body: part.body.subarray(0, 4096) }).subarray(0, 1024)).replace(/<!--[^]*?(?:-->|$)/g, "");
  const name = charsetName(/<meta\s[^>]*?charset\s*=\s*["']?\s*([^\s"'>;/]+)/i.exec(start)?.[1] ?? "");
  return name.startsWith("utf-16") ? "utf-8" : name || part.charset; // (it was read as ASCII, so it is no UTF-16)
}

function isAttached(part) {
  return part.disposition.value === "attachment";
}

function hasPlainText(part) {
  return part.parts ? part.parts.some(hasPlainText) : part.type === "text/plain" && !isAttached(part) && !isBlank(part);
}

function hasHtml(part) {
  return part.parts ? part.parts.some(hasHtml) : part.type === "text/html" && !isAttached(part);
}

/** Whether the text of a part has nothing that is seen. */
function isBlank(part) {
  return part.isBlank ??= !/[^\s\u00ad\u200b-\u200f\u2060\ufeff]/.test(partText(part));
}

/**
 * Returns what of a mail is shown, in its order: [how, part], where `how` is "text", "html", "alternative" (HTML beside a plain text that
 * says the same), "calendar", "mail" or "file". Of alternatives the plain text is shown, or the HTML where the plain text is blank.
 */
export function shownOf(part, hasBetter = false) {
  if (!part.parts) return [[howShown(part, hasBetter), part]];
  const isAlternative = part.type === "multipart/alternative";
  const best = isAlternative ? part.parts.findLast(hasPlainText) ?? part.parts.findLast(hasHtml) : undefined;
  return part.parts.flatMap((inner, at) => {
    if (part.type === "multipart/signed" && at > 0) return [["file", inner]];
    if (best !== undefined && inner !== best && inner.type === "text/plain" && isBlank(inner)) return [];
    return shownOf(inner, hasBetter || best !== undefined && inner !== best);
  });
}

function howShown(part, hasBetter) {
  if (part.mail) return "mail";
  if (part.type.startsWith("multipart/")) return "text";
  if (isAttached(part)) return "file";
  if (part.type === "text/calendar") return "calendar";
  if (part.type === "text/html") return hasBetter ? "alternative" : "html";
  if (hasBetter) return "file";
  // (a kind of text that is not known is read as plain text: RFC 2046, 4.1.4)
  return part.type === "text/plain" || part.type.startsWith("text/") && !part.file ? "text" : "file";
}
