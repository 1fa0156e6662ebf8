"""What is searched of a message: its subject, its author, its text, what it quotes; and its Message-ID.

A message may hold anything, so each step takes a time that grows with the length alone, which Python's own `email` does not. What is
read of a message is bounded. Nothing here decides who sees what.
"""
import binascii, codecs, html, itertools, re, unicodedata

READ = 2_000_000  # bytes that are read of a message
TEXT, QUOTED, FIELD = 200_000, 100_000, 2_000  # characters that are searched of it
PARTS, DEPTH = 200, 20
# (only codecs that are charsets of mail: `idna`, `punycode` and others take a time that grows with the square)
CHARSETS = frozenset(codecs.lookup(it).name for it in (
    "ascii utf-8 utf-16 utf-16-be utf-16-le iso-8859-1 iso-8859-2 iso-8859-3 iso-8859-4 iso-8859-5 iso-8859-6 iso-8859-7 iso-8859-8 iso-8859-9 "
    "iso-8859-10 iso-8859-13 iso-8859-14 iso-8859-15 iso-8859-16 cp1250 cp1251 cp1252 cp1253 cp1254 cp1255 cp1256 cp1257 cp1258 cp874 cp866 cp437 "
    "cp850 koi8-r koi8-u mac-roman tis-620 iso-2022-jp iso-2022-jp-1 iso-2022-jp-2 iso-2022-jp-3 shift_jis cp932 euc-jp gb2312 gbk gb18030 hz "
    "big5 big5hkscs cp950 euc-kr cp949 iso-2022-kr johab").split())
WIDER = {"ascii": "cp1252", "iso8859-1": "cp1252", "gb2312": "gb18030", "euc_kr": "cp949", "shift_jis": "cp932"}  # as browsers take them
ENCODED_WORD = re.compile(r"=\?([!->@-~]{1,60})\?([bBqQ])\?([!->@-~ ]{0,2000})\?=(?:[ \t\r\n]+(?==\?))?")
HEAD_END = re.compile(rb"\n\r?\n")
BASE64_LINE = re.compile(r"(?m)^[A-Za-z0-9+/=]{60,}$")
# (a quoted value that does not end takes the rest: so the text is gone through once)
PARAMETER = re.compile(r';[ \t\r\n]*([^ \t\r\n=;]{1,60})[ \t\r\n]*=[ \t\r\n]*("(?:[^"\\]|\\.)*"?|[^;]*)')
MESSAGE_ID = re.compile(rb"<([!-;=?-~]{1,500})>")
CONTROLS = re.compile("[\0-\x08\x0b-\x1f\x7f-\x9f\u202a-\u202e\u2066-\u2069\ud800-\udfff\ufffe\uffff]")
HAN = "\u3040-\u30ff\u31f0-\u31ff\u3400-\u4dbf\u4e00-\u9fff\uf900-\ufaff\U00020000-\U0003ffff"
UNSPACED = f"\u0e00-\u0eff\u1000-\u109f\u1100-\u11ff\u1780-\u17ff\u3130-\u318f\ua960-\ua97f\uac00-\ud7ff{HAN}"
UNSPACED_RUN = re.compile(f"[{UNSPACED}]+")
BROKEN_RUN = re.compile(f"(?<=[{HAN}])[ \t\r]*\n[ \t]*(?=[{HAN}])")
# (Python puts marks that follow each other in order in a time that grows with the square)
PIECE = re.compile(r"[^\n]{1,1000}|\n")
BREAKS = ("p", "br", "div", "tr", "li", "td", "h1", "h2", "h3", "blockquote")


def read(raw):
    """Returns (subject, author, text, quoted, Message-ID) of a message's bytes."""
    fields, _ = split(raw[:READ])
    hint = structured(fields, b"content-type")[1].get("charset", "")
    found = MESSAGE_ID.search(fields.get(b"message-id", b""))
    text, quoted = divided("\n".join(texts_of(raw[:READ])))
    return (normal(field(fields, b"subject", hint), FIELD), normal(field(fields, b"from", hint), FIELD), normal(text, TEXT), normal(quoted, QUOTED),
            found[1].decode() if found else "")


def as_indexed(text, ends=True):
    """
    Returns a text as it is indexed and asked for: in lower case, and each run of a script that puts no spaces between words as its pairs
    of letters, so that words in it are found, also over the end of a line. `ends`: whether the last letter of a run is a word too.
    """
    text = text.casefold()
    if text.isascii():
        return text
    text = BROKEN_RUN.sub("", text)

    def pairs(found):
        run, is_last = found[0], found.end() == len(text)
        end = [] if not ends and is_last and len(run) > 1 else [run[-1]]
        return " " + " ".join([run[at:at + 2] for at in range(len(run) - 1)] + end) + " "
    return UNSPACED_RUN.sub(pairs, text)


# ---- charsets and encodings

def codec_of(charset):
    """Returns the codec of a charset, and None if it is not one of mail."""
    try:
        name = codecs.lookup(charset).name
    except (LookupError, ValueError):
        return None
    return WIDER.get(name, name) if name in CHARSETS else None


def text_of(raw, charset="", hint=""):
    """Returns bytes as text: in their charset if that is known and fits, else in UTF-8, in the charset of the message, or in Latin-1."""
    named = codec_of(charset) if charset else None
    for name in (named, "utf-8", codec_of(hint) if hint else None):
        try:
            if name:
                return raw.decode(name)
        except ValueError:
            pass
    return raw.decode(named, "replace") if named else raw.decode("latin-1")


def base64_decoded(raw):
    """Returns what the digits say, without those at the end that are no whole byte."""
    digits = re.sub(rb"[^A-Za-z0-9+/]", b"", raw)
    left = len(digits) % 4
    return binascii.a2b_base64(digits[:len(digits) - left] + (digits[-left:] + b"==")[:4] if left > 1 else digits[:len(digits) - left])


def words_decoded(text):
    """Returns a header's text with its encoded words decoded (RFC 2047); words of one charset that follow each other are one text."""
    if "=?" not in text:
        return text
    pieces, at, last = [], 0, None
    for found in ENCODED_WORD.finditer(text):
        charset, is_base64, said = found[1].partition("*")[0].lower(), found[2] in "bB", found[3]
        if codec_of(charset) is None or is_base64 and not re.fullmatch(r"[A-Za-z0-9+/]*={0,3}", said):
            continue
        raw = base64_decoded(said.encode()) if is_base64 else binascii.a2b_qp(said.encode(), header=True)
        if last == (charset, found.start()):
            pieces[-1][0].append(raw)
        else:
            pieces += [text[at:found.start()], ([raw], charset)]
        at, last = found.end(), (charset, found.end())
    return "".join(it if isinstance(it, str) else text_of(b"".join(it[0]), it[1]) for it in [*pieces, text[at:]])


def content_of(fields, body):
    """Returns a body without its transfer encoding."""
    encoding = fields.get(b"content-transfer-encoding", b"").strip().lower()
    return base64_decoded(body) if encoding == b"base64" else binascii.a2b_qp(body) if encoding == b"quoted-printable" else body


def normal(text, most):
    """Returns at most `most` characters in the form NFKC, with spaces in the place of controls."""
    text = re.sub("[ \t\u3000]{2,}", " ", text[:2 * most])[:most]
    if not text.isascii():
        text = "".join(unicodedata.normalize("NFKC", it) for it in PIECE.findall(text))[:most]
    return CONTROLS.sub(" ", text)


# ---- headers

def split(raw):
    """Returns the header fields by their names in lower case, the first of each, and the body."""
    raw = raw.lstrip(b"\r\n") if raw[:1] in b"\r\n" else raw
    end = HEAD_END.search(raw)
    head, body = (raw[:end.start()], raw[end.end():]) if end else (raw, b"")
    fields, pieces = {}, []
    for line in head[:200_000].split(b"\n"):
        if line[:1] in b" \t" and line:
            if len(pieces) < 50 and sum(map(len, pieces)) < 4 * FIELD:
                pieces.append(line[:4 * FIELD])
            continue
        name, colon, value = line[:8 * FIELD].partition(b":")
        pieces = [value]
        if colon and len(name) < 100:
            fields.setdefault(name.strip().lower(), pieces)
    return {name: b"".join(it).replace(b"\r", b"") for name, it in fields.items()}, body


def structured(fields, name):
    """Returns the value of a field such as Content-Type in lower case, and its parameters."""
    text = fields.get(name, b"")[:4 * FIELD].decode("latin-1")
    found = {key.lower(): said[1:].removesuffix('"').replace("\\", "") if said[:1] == '"' else said.strip() for key, said in PARAMETER.findall(text)}
    return text.partition(";")[0].strip().lower(), found


def field(fields, name, hint=""):
    return " ".join(words_decoded(text_of(fields.get(name, b"")[:4 * FIELD], "", hint)).split())[:FIELD]


# ---- parts

def texts_of(raw):
    """Gives the texts of a message and the names of its files, in their order; of a message inside it also the subject and author."""
    stack, seen = [(*split(raw), 0, "")], 0
    while stack and seen < PARTS:
        (fields, body, depth, around), seen = stack.pop(), seen + 1
        kind, parameters = structured(fields, b"content-type")
        kind = kind or ("message/rfc822" if around == "multipart/digest" else "text/plain")
        if name := structured(fields, b"content-disposition")[1].get("filename") or parameters.get("name"):
            yield words_decoded(text_of(name[:FIELD].encode("latin-1")))
        inner = [split(it) for it in parts_of(body, parameters.get("boundary", "")[:200])] if kind.startswith("multipart/") and depth < DEPTH else []
        if inner:
            inner = chosen(kind, inner)
        elif kind == "message/rfc822" and depth < DEPTH:
            inner = [split(content_of(fields, body))]
            yield field(inner[0][0], b"subject")
            yield field(inner[0][0], b"from")
        elif kind.startswith(("text", "multipart/")):
            yield shown_text(kind, parameters, content_of(fields, body))
        stack += reversed([(*it, depth + 1, kind) for it in inner])


def chosen(kind, parts):
    """Returns the parts that are read: of alternatives the plain text, if it is not blank."""
    plain = [it for it in parts if structured(it[0], b"content-type")[0] in ("text/plain", "") and it[1].strip()]
    return plain[-1:] if kind == "multipart/alternative" and plain else parts


def parts_of(body, boundary):
    """Gives the bodies between the delimiter lines of a boundary; nothing where it never comes."""
    if not boundary:
        return
    line = re.compile(rb"(?m)^--" + re.escape(boundary.encode("latin-1", "replace")) + rb"(?:--)?[ \t]*\r?$")
    found = [*itertools.islice(line.finditer(body), PARTS + 1)]
    for at, it in enumerate(found[:PARTS]):
        if it[0].rstrip().endswith(b"--") and not boundary.endswith("--"):
            return
        yield body[it.end() + 1:found[at + 1].start() if at + 1 < len(found) else len(body)]


def shown_text(kind, parameters, content):
    """Returns the text of a part: tags are left out of HTML, and lines that flow are joined where that says so (RFC 3676, DelSp)."""
    text = text_of(content, parameters.get("charset", ""))
    if parameters.get("delsp", "").lower() == "yes" and parameters.get("format", "").lower() == "flowed":
        text = text.replace("\r", "").replace(" \n", "")
    return text_of_html(text[:4 * TEXT]) if kind in ("text/html", "text/enriched") else text


def text_of_html(text):
    """Returns what is between the tags; only elements whose text is not shown are left out."""
    first, *rest = text.split("<")
    pieces, until = [first], None
    for part in rest:
        tag, closed, after = part.partition(">")
        name = re.match(r"/?[a-zA-Z0-9]*", tag)[0].lower()
        if until is not None:
            if name != until:
                continue
            until = None
        elif name in ("script", "style", "head"):
            until = "/" + name
            continue
        is_tag = closed and name or tag[:1] in ("!", "?")
        pieces.append(("\n" if name.strip("/") in BREAKS else "") + after if is_tag else "<" + part)
    return html.unescape("".join(pieces))


def divided(text):
    """Returns a text without its quoted lines and without lines of base64 digits, and the quoted lines."""
    own, quoted = [], []
    for line in BASE64_LINE.sub("", text.replace("\r", "")).split("\n"):
        (quoted if line.startswith(">") and not line.startswith(">From ") else own).append(line)
    return "\n".join(own), "\n".join(it.lstrip("> ") for it in quoted)
