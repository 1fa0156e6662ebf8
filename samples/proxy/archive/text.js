/** Plain text as it is shown: lines with their quoting depth (RFC 3676), blocks of one kind, and web addresses. */

const MOST_BLOCKS = 5000, MOST_DEPTH = 8, MOST_CHARACTERS = 300_000, MOST_LINES = 6000;

/** Returns the lines of a text as [quoting depth, line]. With `flowed` soft line breaks are undone; `delSp` is RFC 3676's. */
function linesOf(text, { flowed, delSp }) {
  const lines = text.split("\n").map(line => line.endsWith("\r") ? line.slice(0, -1) : line);
  if (lines.at(-1) === "") lines.pop();
  if (flowed) return paragraphsOf(lines, delSp);
  return lines.map((line, at) => fixedLine(line, lines[at - 1], lines[at + 1]));
}

/** Joins flowed lines (RFC 3676, 4): a line that ends with a space goes on in the next one of the same depth. */
function paragraphsOf(lines, delSp) {
  const paragraphs = [];
  let open = null;
  const close = () => {
    if (open) paragraphs.push([open.depth, open.pieces.join("")]);
    open = null;
  };
  for (const line of lines) {
    const [depth, content] = flowedLine(line), isSoft = content.endsWith(" ") && content !== "-- ";
    if (open && (open.depth !== depth || content === "-- ")) close();
    open ??= { depth, pieces: [] };
    open.pieces.push(isSoft && delSp ? content.slice(0, -1) : content);
    if (!isSoft) close();
  }
  close();
  return paragraphs;
}

/** The depth of a flowed line, and its content without space stuffing (RFC 3676, 4.4 and 4.5). */
function flowedLine(line) {
  let depth = 0;
  while (line[depth] === ">") depth++;
  return [depth, line.slice(depth + (line[depth] === " " ? 1 : 0))];
}

/** The depth and content of a line that is not flowed: `> > text`, `>> text`. A lone `>From ` is what an mbox made of `From `. */
function fixedLine(line, before = "", after = "") {
  if (line[0] !== ">" || line.startsWith(">From ") && before[0] !== ">" && after[0] !== ">") return [0, line];
  let depth = 0, at = 0;
  while (line[at] === ">") {
    depth++;
    at++;
    if (line[at] === " " && line[at + 1] === ">") at++;
  }
  return [depth, line.slice(at + (line[at] === " " ? 1 : 0))];
}

/** Returns runs of lines of one kind: { depth, isSignature, text }, where each line of `text` ends with a line feed. */
export function blocksOf(text, form) {
  const blocks = [];
  let block = null, isSignature = false;
  for (const [said, line] of linesOf(text, form)) {
    const depth = blocks.length < MOST_BLOCKS ? Math.min(said, MOST_DEPTH) : 0;
    if (depth > 0) isSignature = false;
    else if (line === "-- ") isSignature = true;
    if (block?.depth !== depth || block.isSignature !== isSignature) blocks.push(block = { depth, isSignature, lines: [] });
    block.lines.push(line);
  }
  return blocks.map(({ lines, ...kind }) => ({ ...kind, text: `${lines.join("\n")}\n` }));
}

/** Returns how much of a text, from `start` on, is shown at once: whole lines where that can be. */
export function endOfShown(text, start = 0) {
  let end = start;
  for (let lines = 0; lines < MOST_LINES; lines++) {
    const next = text.indexOf("\n", end) + 1;
    if (next === 0 && text.length - start <= MOST_CHARACTERS) return text.length;
    if (next === 0 || next - start > MOST_CHARACTERS) return end > start ? end : Math.min(text.length, start + MOST_CHARACTERS);
    end = next;
  }
  return end;
}

const WEB_ADDRESS = /\bhttps?:\/\/[^\s<>"`\u0000-\u001f\u202a-\u202e\u2066-\u2069]{1,2000}/gi;

/** Gives the web addresses in a text: { at, address, url }. */
export function* webAddressesIn(text) {
  for (const found of text.matchAll(WEB_ADDRESS)) {
    const address = withoutSentenceEnd(found[0]), url = webUrl(address);
    if (url) yield { at: found.index, address, url };
  }
}

/** An address without the punctuation that the sentence around it puts at its end, and without a bracket that it does not open. */
function withoutSentenceEnd(address) {
  let end = address.length;
  for (let tries = 0; tries < 20 && end > 0; tries++) {
    const last = address[end - 1], opening = { ")": "(", "]": "[", "}": "{" }[last], rest = address.slice(0, end);
    const isUnopened = opening !== undefined && rest.split(opening).length < rest.split(last).length;
    if (!isUnopened && !".,;:!?*_~'|".includes(last)) break;
    end--;
  }
  return address.slice(0, end);
}

/** The address as a URL of the web; null where it is none, or has a user name, which would pass for the host. */
function webUrl(address) {
  try {
    const url = new URL(address);
    return /^https?:$/.test(url.protocol) && !url.username && !url.password ? url.href : null;
  } catch {
    return null;
  }
}
