/**
 * Dates: of Date fields, of rows, and as a reader sees them.
 *
 * A Date field is read as the archive reads it (RFC 5322, 3.3 and 4.3), so that a message has one date in its row and on
 * its page. `Date.parse` differs between browsers, and reads what the archive does not.
 */

const MONTHS = ["jan", "feb", "mar", "apr", "may", "jun", "jul", "aug", "sep", "oct", "nov", "dec"];
const HOURS_WEST = new Map([["edt", 4], ["est", 5], ["cdt", 5], ["cst", 6], ["mdt", 6], ["mst", 7], ["pdt", 7], ["pst", 8]]);
const FIRST = Date.UTC(1900, 0, 1), LAST = Date.UTC(9998, 11, 31, 23, 59, 59), MOST_TOKENS = 16;

/** Returns the instant of a Date field in milliseconds; null where it is no date, and the archive takes the arrival instead. */
export function sentDate(field) {
  const tokens = tokensOf(field);
  if (isWord(tokens[0])) tokens.splice(0, tokens[1] === "," ? 2 : 1);
  const [day, month, year, ...time] = tokens, midnight = midnightOf(day, month, year);
  if (midnight === null) return null;
  const at = midnight + 1000 * secondsOf(time);
  return at >= FIRST && at <= LAST ? at : null;
}

/** Returns the instant of the date in a row, which is in UTC; null if the text is no date. */
export function rowDate(text) {
  const found = /^(\d{4})-(\d\d)-(\d\d) (\d\d):(\d\d)$/.exec(text);
  if (!found) return null;
  const [, year, month, day, hour, minute] = found.map(Number);
  return Date.UTC(year, month - 1, day, hour, minute);
}

let format = null; // (made when it is first asked for, as that takes as long as a thousand rows)

/** Returns an instant in the reader's own time and language. */
export function readersTime(instant) {
  format ??= new Intl.DateTimeFormat(undefined, { dateStyle: "full", timeStyle: "long" });
  return format.format(instant);
}

/** Returns the language in which `readersTime` writes. */
export function readersLanguage() {
  return format?.resolvedOptions().locale ?? "";
}

/** The first tokens of a field: runs of digits or of letters, and other bytes, without white space and comments. */
function tokensOf(field) {
  const tokens = [], token = /[0-9]+|[A-Za-z]+|[^]/y;
  for (let at = 0; at < field.length && tokens.length < MOST_TOKENS;) {
    token.lastIndex = at;
    const [found] = token.exec(field), end = found === "(" ? commentEnd(field, at) : 0;
    if (end === 0 && !/[ \t\r\n]/.test(found)) tokens.push(found);
    at = end || at + found.length;
  }
  return tokens;
}

/** Where the comment that opens at a place ends, or 0 where it never does. Comments stand in each other, and `\` quotes. */
function commentEnd(field, open) {
  let depth = 0;
  for (let at = open; at < field.length; at++) {
    if (field[at] === "\\") at++;
    else if (field[at] === "(") depth++;
    else if (field[at] === ")" && --depth === 0) return at + 1;
  }
  return 0;
}

function isWord(token = "") {
  return /^[A-Za-z]/.test(token);
}

function midnightOf(day = "", month = "", year = "") {
  const number = yearOf(year), at = MONTHS.indexOf(month.toLowerCase());
  if (number === null || at < 0 || !/^\d{1,2}$/.test(day)) return null;
  const midnight = new Date(Date.UTC(number, at, Number(day)));
  return midnight.getUTCMonth() === at && midnight.getUTCDate() === Number(day) ? midnight.getTime() : null;
}

/** A year of two, three or four digits (RFC 5322, 4.3). None before 1000 is an instant of the archive. */
function yearOf(digits) {
  if (!/^\d{2,4}$/.test(digits)) return null;
  const number = Number(digits);
  if (digits.length === 2) return number < 50 ? 2000 + number : 1900 + number;
  if (digits.length === 3) return 1900 + number;
  return number < 1000 ? null : number;
}

/** The seconds from midnight in UTC on; 0 where there is no valid time. A zone that is not valid counts as UTC. */
function secondsOf([hour = "", colon, minute = "", ...rest]) {
  const hasSeconds = rest[0] === ":", second = hasSeconds ? rest[1] ?? "" : "00", zone = hasSeconds ? rest.slice(2) : rest;
  const isTime = colon === ":" && /^\d{1,2}$/.test(hour) && /^\d\d$/.test(minute) && /^\d\d$/.test(second);
  if (!isTime || hour > 23 || minute > 59 || second > 60) return 0;
  return 3600 * hour + 60 * minute + Math.min(second, 59) - zoneOf(zone);
}

/** The seconds east of UTC. */
function zoneOf([sign = "", digits = ""]) {
  if (isWord(sign)) return -3600 * (HOURS_WEST.get(sign.toLowerCase()) ?? 0);
  const [, hours, minutes] = /^(\d\d)([0-5]\d)$/.exec(digits) ?? [];
  if (hours === undefined || sign !== "+" && sign !== "-") return 0;
  return (sign === "-" ? -1 : 1) * (3600 * hours + 60 * minutes);
}
