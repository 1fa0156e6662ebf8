/** The first event of an invitation (text/calendar, RFC 5545): what, when, where, and who invites. */

const MOST_CHARACTERS = 200_000, MOST_VALUE = 1000;

/** Returns { method, summary, start, end, duration, location, organizer, rule } of the first event, each a text or empty; null if there is no event. */
export function eventOf(text) {
  const event = { method: "", summary: "", start: "", end: "", duration: "", location: "", organizer: "", rule: "" };
  const open = [];
  let isThere = false;
  for (const { name, parameters, value } of linesOf(text.slice(0, MOST_CHARACTERS))) {
    if (name === "BEGIN") open.push(value.toUpperCase());
    else if (name === "END" && open.pop() === "VEVENT") return event;
    isThere ||= open.at(-1) === "VEVENT";
    const field = fieldOf(name, open.at(-1));
    if (field && event[field] === "") event[field] = said(field, parameters, value);
  }
  return isThere ? event : null;
}

const FIELDS = new Map(Object.entries({
  SUMMARY: "summary", DTSTART: "start", DTEND: "end", DURATION: "duration", LOCATION: "location", ORGANIZER: "organizer", RRULE: "rule",
}));

/** The field of an event that a property of a component is; an alarm in the event has properties of its own. */
function fieldOf(name, component) {
  if (component === "VCALENDAR") return name === "METHOD" ? "method" : undefined;
  return component === "VEVENT" ? FIELDS.get(name) : undefined;
}

/** Gives the lines, unfolded (3.1). */
function* linesOf(text) {
  for (const line of text.replace(/\r?\n[ \t]/g, "").split(/\r?\n/)) {
    const [, name, parameters, value] = /^([A-Za-z0-9-]{1,40})((?:;[^":;]*(?:"[^"]*"[^":;]*)*)*):(.*)$/.exec(line) ?? [];
    if (name) yield { name: name.toUpperCase(), parameters, value };
  }
}

function said(field, parameters, value) {
  const text = value.slice(0, MOST_VALUE);
  if (field === "start" || field === "end") return momentText(parameters, text);
  if (field === "duration") return durationText(text);
  if (field === "organizer") return organizerText(parameters, text);
  return text.replace(/\\([nN\\,;])/g, (_, letter) => /n/i.test(letter) ? " " : letter);
}

function parameterOf(parameters, name) {
  const found = new RegExp(`;${name}=(?:"([^"]*)"|([^;]*))`, "i").exec(parameters);
  return found?.[1] ?? found?.[2] ?? "";
}

/** `2024-03-18 10:00 (Europe/Berlin)`, `2024-03-18 10:00 (UTC)`, `2024-03-18` (3.3.4, 3.3.5); another text stays as it is. */
function momentText(parameters, value) {
  const [, year, month, day, hour, minute, isUtc] = /^(\d{4})(\d\d)(\d\d)(?:T(\d\d)(\d\d)\d\d(Z?))?$/.exec(value) ?? [];
  if (!year) return value;
  if (!hour) return `${year}-${month}-${day}`;
  const zone = isUtc ? "UTC" : parameterOf(parameters, "TZID");
  return `${year}-${month}-${day} ${hour}:${minute}${zone && ` (${zone})`}`;
}

/** `1 d 2 h 30 min` of `P1DT2H30M` (3.3.6). */
function durationText(value) {
  const [, weeks, days, hours, minutes] = /^\+?P(?:(\d+)W)?(?:(\d+)D)?(?:T(?:(\d+)H)?(?:(\d+)M)?(?:\d+S)?)?$/i.exec(value) ?? [];
  const pieces = [[weeks, "weeks"], [days, "d"], [hours, "h"], [minutes, "min"]].filter(([number]) => number !== undefined);
  return pieces.map(([number, unit]) => `${Number(number)} ${unit}`).join(" ") || value;
}

function organizerText(parameters, value) {
  const name = parameterOf(parameters, "CN"), address = value.replace(/^mailto:/i, "");
  return name ? `${name} <${address}>` : address;
}
