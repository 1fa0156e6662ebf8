"""reading_parsed.py: what the script's modules make of mails that chance writes or changes; a part of reading.py."""
import base64, random
from email import message_from_bytes, policy
from email.header import Header
from email.message import EmailMessage

from letters import LETTERS

# The functions of the script by their names, in the page.
MODULES = """Promise.all(['bytes', 'words', 'parts', 'message'].map(it => import(`/archive/${it}.js`))).then(them => {
  Object.assign(window, ...them);
  window.read = text => {
    const mail = partOf(base64Bytes(bytesOf(text)));
    return [fieldText(mail, 'subject'), shownOf(mail).filter(([how]) => how === 'text').map(([, part]) => partText(part)).join('')];
  };
  window.shown = text => {
    const begun = performance.now(), mail = partOf(base64Bytes(bytesOf(text)));
    const all = mail.fields.size ? messageElements(mail, 'letters', '0'.repeat(64)).flatMap(it => [it, ...it.querySelectorAll('*')]) : [];
    return [performance.now() - begun, [...new Set(all.map(it => it.tagName))], all.filter(it => it.href && !/^(https?|mailto):/.test(it.protocol)).length,
      all.flatMap(it => it.getAttributeNames()).filter(it => /^on|style|src/.test(it))];
  };
  window.tried = text => { try { return shown(text); } catch (error) { return String(error.stack); } };
  return 'there';
})"""
WORDS = "the mail list Grüße größer naïve Ελλάδα привет мир 你好 会議 한국 🙂 = ? _ == =? ?= \" ' , ; : ( ) < > @ a=b 100% \\ --".split(" ")
LANGUAGES = {"koi8-r": "привет мир список = ? a=b (и)", "iso-2022-jp": "会議 資料 お知らせ = ? list", "gb18030": "你好 列表 = ? 邮件", "iso-8859-1": "Grüße größer = ? é_è"}
MAY_BECOME = {*"A ARTICLE BDI BLOCKQUOTE BUTTON DD DETAILS DL DT H1 H2 H3 H4 H5 H6 LI NAV P PRE SECTION SPAN SUMMARY TIME UL".split()}
PIECES = [b"\n", b"\r\n\r\n", b"=?", b"?=", b"--b1", b'"', b"; ", b"<", b"<script>", b"javascript:"]


def quoted(data):
    return f"'{base64.b64encode(data).decode()}'"


def written(chance):
    """A mail that Python writes: its bytes and its body."""
    message, charset = EmailMessage(), chance.choice([*LANGUAGES, "utf-8", "utf-8", "utf-8"])
    those = LANGUAGES[charset].split(" ") if charset in LANGUAGES else WORDS
    subject = " ".join(chance.choices(those, k=chance.randrange(1, 25)))
    body = "".join(" ".join(chance.choices(those, k=chance.randrange(0, 60))) + "\n" for _ in range(chance.randrange(1, 8)))
    message["From"] = "a@example.org"
    message.set_content(body, charset=charset, cte=chance.choice(["base64", "quoted-printable"]))
    if chance.random() < 0.5:
        message.add_alternative("<p>x</p>", subtype="html")
    if chance.random() < 0.5:
        message.add_attachment(bytes(chance.choices(range(256), k=2000)), maintype="application", subtype="octet-stream", filename=chance.choice(WORDS[:17]) + ".bin")
    if charset == "utf-8":
        message["Subject"] = subject
        return message.as_bytes(), body
    return b"Subject: " + Header(subject, charset).encode().encode() + b"\n" + message.as_bytes(), body


def compared(trial, site, reader, count):
    """Mails that Python's `email` writes: subjects and texts, by what Python reads."""
    reader.open(site.url("/"))
    trial.check("the modules are there", reader.later(MODULES), "there")
    chance, wrong = random.Random(7), []
    for _ in range(count):
        text, body = written(chance)
        subject, said = reader.value(f"read({quoted(text)})")
        by_python = " ".join(str(message_from_bytes(text, policy=policy.default)["Subject"]).split())
        if " ".join(subject.split()) != by_python or said.replace("\r", "").rstrip() != body.rstrip():
            wrong.append((by_python[:60], subject[:60], body[:40], said[:40]))
    trial.check(f"{count} mails that Python wrote: those that are read otherwise than by Python", (len(wrong), wrong[:2]), (0, []))


def changed_by(chance, short):
    """A letter with bytes changed, lost, doubled and moved."""
    text = bytearray(chance.choice(short))
    for _ in range(chance.randrange(1, 12)):
        at, end = sorted(chance.choices(range(len(text) + 1), k=2))
        end, kind = min(end, at + 60), chance.randrange(5)
        piece = (b"", bytes(text[at:end]) * 3, bytes(chance.choices(range(256), k=8)), chance.choice(PIECES), bytes(chance.choice(short)[:200]))[kind]
        text[at:end if kind < 3 else at] = piece
    return bytes(text)


def changed(trial, site, reader, count):
    """Each changed letter is shown, or left as it was, with no more than what a mail may become."""
    reader.open(site.url("/l/letters/threads"))
    trial.check("the modules are there", reader.later(MODULES), "there")
    chance, wrong, short = random.Random(11), [], [it.text for it in LETTERS if len(it.text) < 20_000]
    for _ in range(count):
        text = changed_by(chance, short)
        said = reader.value(f"tried({quoted(text)})")
        if isinstance(said, str) or said[0] > 5000 or {*said[1]} - MAY_BECOME or said[2] or said[3]:
            wrong.append((said, text[:200]))
    trial.check(f"{count} letters changed by chance: those that throw, take five seconds or become what they may not", (len(wrong), wrong[:2]), (0, []))
    trial.check("nothing of them ran", reader.value("window.ran ?? null"), None)
