/** HTML as plain text. Tags are read here and dropped; no browser ever parses the HTML of a mail. */

import { BARE, REFERENCES } from "./entities.js";

const REFERENCE = /&(?:#(\d+);?|#x([0-9a-f]+);?|([a-z][a-z0-9]{0,31})(;?))/gi;

/** The longest name that HTML reads also without a `;`. */
const LONGEST_BARE = Math.max(...[...BARE].map(name => name.length));

/** A text with its character references replaced (HTML standard, 13.2.5.72 to 80); other names stay. `isValue`: of an attribute. */
function withoutReferences(text, isValue = false) {
  return text.replace(REFERENCE, (all, decimal, hex, name, end, at) => {
    if (!name) return characterOf(decimal ? Number(decimal) : parseInt(hex, 16));
    if (end && REFERENCES.has(name)) return REFERENCES.get(name);
    return withoutBareName(name, isValue, text[at + name.length + 1]) + end;
  });
}

/** A name without a `;` that is one of HTML's, with what follows it there; else it stays, with its `&`. */
function withoutBareName(name, isValue, next = "") {
  for (let length = Math.min(name.length, LONGEST_BARE); length > 1; length--) {
    const bare = name.slice(0, length), rest = name.slice(length);
    if (!BARE.has(bare)) continue;
    return isValue && (rest || next === "=") ? `&${name}` : REFERENCES.get(bare) + rest;
  }
  return `&${name}`;
}

const WINDOWS_1252 = new TextDecoder("windows-1252");

/** The character of a number; 128 to 159 are those of Windows-1252. */
function characterOf(code) {
  if (code >= 128 && code < 160) return WINDOWS_1252.decode(new Uint8Array([code]));
  return code > 0 && code <= 0x10ffff && (code < 0xd800 || code > 0xdfff) ? String.fromCodePoint(code) : "\ufffd";
}

/** Gives the text and the tags of HTML, in their order: { text } and { name, isEnd, source }. Comments, scripts and styles are left out. */
function* tokensOf(html) {
  for (let at = 0; at < html.length;) {
    const open = html.indexOf("<", at);
    if (open !== at) yield { text: html.slice(at, open < 0 ? html.length : open) };
    if (open < 0) return;
    const tag = tagAt(html, open);
    if (tag === null) return; // (it never ends)
    if (tag.text || tag.name) yield tag;
    at = tag.end;
  }
}

const UNSHOWN = /^(?:script|style|head|title|template)$/;

/** What stands at a `<`: a tag, a comment without a name, or `<` as text; `end` is the index after it. Null where it never ends. */
function tagAt(html, open) {
  const found = /^<(\/?)([a-z][a-z0-9]{0,20})/i.exec(html.slice(open, open + 24));
  if (!found && !/[!?/]/.test(html[open + 1] ?? "")) return { text: "<", end: open + 1 };
  const isComment = html.startsWith("<!--", open);
  const close = isComment ? html.indexOf("-->", open) : endOfTag(html, open);
  if (close < 0) return null;
  const end = close + (isComment ? 3 : 1);
  if (!found) return { end };
  const name = found[2].toLowerCase(), isEnd = found[1] !== "";
  if (!isEnd && UNSHOWN.test(name)) return { end: startOfEndTag(html, name, end) };
  return { name, isEnd, source: html.slice(open, Math.min(close, open + 4000)), end };
}

/** Where the `>` of a tag is: not in the quotes of a value. */
function endOfTag(html, open) {
  const sign = /=\s{0,20}["']|>/g;
  sign.lastIndex = open;
  for (let found; (found = sign.exec(html)) !== null;) {
    if (found[0] === ">") return found.index;
    const quote = html.indexOf(found[0].at(-1), sign.lastIndex);
    if (quote < 0) return html.indexOf(">", open);
    sign.lastIndex = quote + 1;
  }
  return -1;
}

function startOfEndTag(html, name, from) {
  const endTag = new RegExp(`</${name}`, "gi");
  endTag.lastIndex = from;
  return endTag.exec(html)?.index ?? html.length;
}

const BLOCK = /^(?:p|div|br|tr|li|h[1-6]|blockquote|table|ul|ol|dl|dt|dd|pre|hr|section|article|header|footer|center|address)$/;
const SPACED = /^(?:p|h[1-6]|ul|ol|table|pre)$/;
/** A line of which nothing is seen: many mails begin with one, so that previews show no more of them. */
const UNSEEN = /^[\s\u00ad\u034f\u200b-\u200f\u2060\ufeff]*$/;

/** Lines as they are written, quotes with `> ` in front. */
class Writer {
  lines = [];
  line = [];
  quotes = 0;
  preformatted = 0;
  link = null;

  /** Writes what stands between tags. */
  text(text) {
    const said = withoutReferences(text);
    if (this.preformatted === 0) return this.say(said.replace(/[ \t\r\n\u00a0]+/g, " "));
    said.split("\n").forEach((line, at) => {
      if (at > 0) this.newLine(true);
      this.say(line);
    });
  }

  say(text) {
    this.line.push(text);
    this.link?.name.push(text);
  }

  /** Ends the line. An empty one is written where it is wanted, but not two of them. */
  newLine(isWanted) {
    const line = this.line.join(""), shown = UNSEEN.test(line) ? "" : line, text = this.preformatted > 0 ? shown.trimEnd() : shown.trim();
    if (text || isWanted && this.lines.length > 0 && this.lines.at(-1) !== "") {
      this.lines.push(text && "> ".repeat(Math.min(this.quotes, 8)) + text);
    }
    this.line = [];
  }

  tag({ name, isEnd, source }) {
    if (name === "a") return isEnd ? this.endLink() : this.beginLink(source);
    if (name === "td" || name === "th") return this.say(" ");
    if (!BLOCK.test(name)) return;
    this.newLine(name === "br" || isEnd && SPACED.test(name));
    if (name === "blockquote") this.quotes = Math.max(0, this.quotes + (isEnd ? -1 : 1));
    if (name === "pre") this.preformatted = Math.max(0, this.preformatted + (isEnd ? -1 : 1));
    if (name === "li" && !isEnd) this.say("• ");
  }

  beginLink(source) {
    const address = withoutReferences(/\shref\s*=\s*["']?(https?:\/\/[^\s"'<>]+)/i.exec(source)?.[1] ?? "", true);
    this.link = address ? { address, name: [] } : null;
  }

  /** Writes where a link leads, if its text does not say it. */
  endLink() {
    const link = this.link;
    this.link = null;
    if (link && !link.name.join("").includes(link.address)) this.say(` <${link.address}>`);
  }
}

/** Returns the text of HTML, for reading: blocks as lines, quotes as `> `, and behind a link where it leads. */
export function textOfHtml(html) {
  const writer = new Writer();
  for (const token of tokensOf(html)) {
    if (token.name) writer.tag(token);
    else writer.text(token.text);
  }
  writer.newLine(false);
  return writer.lines.join("\n").trim();
}
