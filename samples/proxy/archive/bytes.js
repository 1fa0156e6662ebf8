/**
 * Content transfer encodings (RFC 2045, section 6), and binary strings.
 *
 * A mail is bytes, of which its parts are views. Headers are read as binary strings: one character a byte, U+0000 to U+00FF, so that
 * regular expressions serve for them. Two things to keep in mind where one is handled: `\s` and `trim` would take the byte A0, which may
 * be a part of a letter, and `toLowerCase` would change bytes over 127.
 */

const LF = 10, CR = 13, SPACE = 32, TAB = 9, EQUALS = 61;

/** Returns the binary string of bytes. */
export function binaryOf(bytes) {
  const pieces = [];
  for (let at = 0; at < bytes.length; at += 8192) pieces.push(String.fromCharCode(...bytes.subarray(at, at + 8192)));
  return pieces.join("");
}

/** Returns the bytes of a binary string. */
export function bytesOf(binary) {
  const bytes = new Uint8Array(binary.length);
  for (let at = 0; at < binary.length; at++) bytes[at] = binary.charCodeAt(at);
  return bytes;
}

/** Returns pieces of bytes as one. */
export function joined(pieces) {
  if (pieces.length === 1) return pieces[0];
  const bytes = new Uint8Array(pieces.reduce((sum, piece) => sum + piece.length, 0));
  let at = 0;
  for (const piece of pieces) {
    bytes.set(piece, at);
    at += piece.length;
  }
  return bytes;
}

/** Returns whether a binary string stands in bytes at a place. */
export function standsAt(binary, bytes, at) {
  if (at + binary.length > bytes.length) return false;
  for (let offset = 0; offset < binary.length; offset++) {
    if (bytes[at + offset] !== binary.charCodeAt(offset)) return false;
  }
  return true;
}

/** Returns a binary string without spaces, tabs and line ends at its sides. */
export function trimmed(binary) {
  let start = 0, end = binary.length;
  while (start < end && isBlank(binary[start])) start++;
  while (start < end && isBlank(binary[end - 1])) end--;
  return binary.slice(start, end);
}

function isBlank(character) {
  return character === " " || character === "\t" || character === "\r" || character === "\n";
}

const SIX_BITS = new Int8Array(256).fill(-1);
[..."ABCDEFGHIJKLMNOPQRSTUVWXYZabcdefghijklmnopqrstuvwxyz0123456789+/"].forEach((digit, bits) => {
  SIX_BITS[digit.charCodeAt(0)] = bits;
});

/** Returns what base64 stands for (6.8). Other characters are skipped; after padding a new text may begin, as where two were joined. */
export function base64Bytes(encoded) {
  const bytes = new Uint8Array(Math.ceil(encoded.length * 3 / 4));
  let length = 0, held = 0, bits = 0;
  for (const code of encoded) {
    if (code === EQUALS) held = bits = 0;
    if (SIX_BITS[code] < 0) continue;
    held = (held << 6 | SIX_BITS[code]) & 0xfff;
    bits += 6;
    if (bits >= 8) bytes[length++] = held >> (bits -= 8) & 255;
  }
  return bytes.subarray(0, length);
}

/** Returns how many bytes base64 stands for, without decoding it. */
export function base64Size(encoded) {
  let digits = 0;
  for (const code of encoded) digits += SIX_BITS[code] < 0 ? 0 : 1;
  return Math.floor(digits * 3 / 4);
}

/** Returns what quoted-printable stands for (6.7). An `=` that begins neither an octet nor a soft line break stays as it is. */
export function quotedPrintableBytes(encoded) {
  const bytes = new Uint8Array(encoded.length);
  let length = 0, fixed = 0; // (of the bytes so far, blanks from `fixed` on go where the line ends: 6.7, rule 3)
  for (let at = 0; at < encoded.length; at++) {
    const code = encoded[at], octet = code === EQUALS ? octetAt(encoded, at) : -1;
    const softEnd = code === EQUALS && octet < 0 ? softBreakEnd(encoded, at) : -1;
    if (octet >= 0) {
      bytes[length++] = octet;
      fixed = length;
      at += 2;
    } else if (softEnd >= 0) {
      fixed = length;
      at = softEnd;
    } else if (code === LF) {
      length = writeLineEnd(bytes, length, fixed);
      fixed = length;
    } else {
      bytes[length++] = code;
    }
  }
  return bytes.subarray(0, length);
}

/** The octet of `=XX` at an `=`, or -1. */
function octetAt(encoded, equals) {
  const high = hexDigit(encoded[equals + 1]), low = hexDigit(encoded[equals + 2]);
  return high >= 0 && low >= 0 ? high << 4 | low : -1;
}

function hexDigit(code) {
  if (code >= 48 && code <= 57) return code - 48;
  if (code >= 65 && code <= 70) return code - 55;
  return code >= 97 && code <= 102 ? code - 87 : -1;
}

/** Where the soft line break of an `=` ends: at its LF, or at the end; -1 where it is none. */
function softBreakEnd(encoded, equals) {
  let end = equals + 1;
  while (encoded[end] === SPACE || encoded[end] === TAB || encoded[end] === CR) end++;
  return end >= encoded.length || encoded[end] === LF ? end : -1;
}

/** Ends a line with LF, or CR LF where CR was written last, and takes the blanks before it away. Returns the new length. */
function writeLineEnd(bytes, length, fixed) {
  const hasReturn = length > fixed && bytes[length - 1] === CR;
  let end = hasReturn ? length - 1 : length;
  while (end > fixed && (bytes[end - 1] === SPACE || bytes[end - 1] === TAB)) end--;
  if (hasReturn) bytes[end++] = CR;
  bytes[end++] = LF;
  return end;
}
