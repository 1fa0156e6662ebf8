/** Charsets, by the browser's own decoders, and encoded words in header fields (RFC 2047). */

import { base64Bytes, bytesOf, joined, quotedPrintableBytes } from "./bytes.js";

/** Names that mails use and the Encoding standard does not list. */
const ALIASES = new Map(Object.entries({
  cp932: "shift_jis", cp936: "gbk", cp949: "euc-kr", cp950: "big5", latin9: "iso-8859-15", utf_8: "utf-8",
  "iso-2022-jp-1": "iso-2022-jp", "iso-2022-jp-2": "iso-2022-jp", "iso-2022-jp-3": "iso-2022-jp", "iso-2022-jp-ms": "iso-2022-jp",
  "euc-cn": "gbk", "x-gbk": "gbk", "gb18030-2000": "gb18030",
}));

/** Names that say no more than that the text was not described. ASCII is among them: bytes over 127 show that it was something else. */
const UNDESCRIBED = /^(?:|us-?ascii|ansi_x3\.4-19\d\d|ascii|unknown|unknown-8bit|x-unknown|default|8bit|binary|none)$/;

/** Returns the name of a charset in lower case, without the language that RFC 2231 lets follow it. */
export function charsetName(label) {
  return label.slice(0, 80).split("*")[0].trim().toLowerCase();
}

/** Returns whether a name says nothing of how a text is to be decoded. */
export function isUndescribed(label) {
  return UNDESCRIBED.test(charsetName(label));
}

/** Returns whether a charset is named that this browser cannot decode. */
export function isUnknownCharset(label) {
  return !isUndescribed(label) && !decoderOf(label);
}

const decoders = new Map();

/** Returns the decoder of a charset, or null where the browser has none. */
function decoderOf(label) {
  const name = charsetName(label);
  const decoder = decoders.get(name) ?? newDecoder(ALIASES.get(name) ?? name);
  if (decoder) decoders.set(name, decoder);
  return decoder;
}

function newDecoder(name) {
  try {
    const decoder = new TextDecoder(name);
    return decoder.encoding === "iso-2022-jp" ? { decode: bytes => new TextDecoder(name).decode(withoutIdleEscapes(bytes)) } : decoder;
  } catch {
    return null;
  }
}

/**
 * ISO-2022-JP without escapes that another one follows at once, as where two encoded words were joined: a browser puts U+FFFD between
 * them. (Chromium also puts one in front where a decoder is used again, so each text has a new one.)
 */
function withoutIdleEscapes(bytes) {
  const kept = new Uint8Array(bytes.length);
  let length = 0;
  for (let at = 0; at < bytes.length; at++) {
    const isEscape = bytes[at] === 27 && (bytes[at + 1] === 36 || bytes[at + 1] === 40);
    if (isEscape && bytes[at + 3] === 27) at += 2;
    else kept[length++] = bytes[at];
  }
  return kept.subarray(0, length);
}

/**
 * Returns the text of bytes. Where no charset is named, or none that the browser knows, they are ISO-2022-JP if they have its escapes,
 * UTF-8 if they can be, and otherwise what `hint` names, or Windows-1252.
 */
export function textOf(bytes, label, hint = "") {
  const named = isUndescribed(label) ? null : decoderOf(label);
  if (named) return named.decode(bytes);
  if (hasJapaneseEscape(bytes.subarray(0, 4000))) return decoderOf("iso-2022-jp").decode(bytes);
  try {
    return new TextDecoder("utf-8", { fatal: true }).decode(bytes);
  } catch {
    const hinted = isUndescribed(hint) ? null : decoderOf(hint);
    return (hinted ?? decoderOf("windows-1252")).decode(bytes);
  }
}

/** Whether `ESC $ @` or `ESC $ B` is there. */
function hasJapaneseEscape(bytes) {
  for (let at = bytes.indexOf(27); at >= 0; at = bytes.indexOf(27, at + 1)) {
    if (bytes[at + 1] === 36 && (bytes[at + 2] === 64 || bytes[at + 2] === 66)) return true;
  }
  return false;
}

/** Returns a text on one line: no control characters, and none that reorder what follows them. */
export function oneLine(text) {
  return withoutControls(text).trim();
}

function withoutControls(text) {
  return text.replace(/[\u0000-\u001f\u007f-\u009f\u2028\u2029]+/g, " ").replace(/[\u202a-\u202e\u2066-\u2069\ufeff]/g, "");
}

const ENCODED_WORD = /=\?([^?\s]{1,80})\?([bq])\?([^?\r\n]*)\?=/gi;

/**
 * Returns a text with its encoded words decoded. Neighbours of one charset are decoded as one, because many programs cut a character in
 * two. What only looks like an encoded word, or has a charset that the browser does not know, stays as it is. `hint` is as in `textOf`,
 * for words of a charset that is said to be unknown.
 */
export function decodeWords(text, hint = "") {
  if (!text.includes("=?")) return text;
  let decoded = "", end = 0, run = null;
  const endRun = () => {
    if (run) decoded += withoutControls(run.decoder.decode(joined(run.pieces)));
    run = null;
  };
  for (const [word, label, encoding, content, at] of wordsIn(text)) {
    const bytes = wordBytes(encoding, content), decoder = bytes && (decoderOf(label) ?? guesserOf(label, hint));
    if (!decoder) continue;
    const between = text.slice(end, at), isNeighbour = run !== null && !/[^ \t\r\n]/.test(between);
    if (!isNeighbour || run.charset !== charsetName(label)) {
      endRun();
      decoded += isNeighbour ? "" : between;
      run = { charset: charsetName(label), decoder, pieces: [] };
    }
    run.pieces.push(bytes);
    end = at + word.length;
  }
  endRun();
  return decoded + text.slice(end);
}

/** What decodes words whose charset says no more than that it is not known, as `unknown-8bit` does (RFC 1428); else null. */
function guesserOf(label, hint) {
  return isUndescribed(label) ? { decode: bytes => textOf(bytes, "", hint) } : null;
}

/** What looks like an encoded word: [all of it, charset, encoding, content, where it stands]. */
function* wordsIn(text) {
  for (const found of text.matchAll(ENCODED_WORD)) yield [...found, found.index];
}

/** The bytes of the content of an encoded word, or null where it is none. */
function wordBytes(encoding, content) {
  if (encoding.toLowerCase() === "b") return /^[A-Za-z0-9+/= ]*$/.test(content) ? base64Bytes(bytesOf(content)) : null;
  return /^[ -~]*$/.test(content) ? quotedPrintableBytes(bytesOf(content.replaceAll("_", " "))) : null;
}
