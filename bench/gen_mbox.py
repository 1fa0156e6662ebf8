#!/usr/bin/env python3
"""gen_mbox.py: a seeded generator of a realistic mailing-list mbox.

  gen_mbox.py [--n 50000] [--seed 1] [--list soc] [--start 2003-01-01] [--years 8]
              [--seps rfc|wide] [--traps SHARE] [--crlf SHARE] [--out FILE]
              [--stats FILE] [--maildir DIR]

Same words, same bytes (only random.Random(seed) is asked; no clock, no
environment). The mbox streams to standard output or --out; a line of figures
goes to standard error (and as JSON to --stats).

Shape, by design:
* sizes: log-normal, whole-message median ~3 KB, tail (patches, base64) to 200 KB;
* threads: ~1/4 of the messages begin one; a reply answers a recent message, so
  depth and width look like a busy technical list's;
* ids: five mailers' styles; full, trimmed or folded References; In-Reply-To
  alone (12 %), in the old "Message from ... <id>" form (part of them), neither
  (6 %: joins by subject only); parents that are not in the list (4 %), ids cut
  in two, ids without ">", References in the wrong order, self-references,
  doubled Message-IDs, none at all;
* subjects: Re:/RE:/Re[2]:/Fwd:/(fwd)/[Fwd: ..]/[list] in many orders, tabs,
  folds, encoded words, some empty and some missing; a few stock subjects that
  come back ("build failure"), which RFC 5256 joins;
* dates: numeric zones, (comments), named zones, no weekday, no seconds, two-
  and three-digit years, ctime form, no zone, clocks years off, garbage, missing;
* --crlf of the messages (3 %) have CR LF lines; 1 % hold Latin-1 bytes, 3 % UTF-8;
* separators are RFC 4155's, each after an empty line; --seps wide writes 15 %
  of them in forms of the wider reading ("a at b", zone, "-", hh:mm);
* --traps adds, to that share of messages, body lines on which mbox readers
  differ: "From here on ..." after an empty line, a whole separator line
  after a line that is not empty, ">From ". Off (0) by default, so that
  every reader counts the same messages.
"""
import argparse, base64, calendar, datetime, json, os, random, sys, time

WORDS = """the of to and a in is it that for on with as this be are not or by from at an have can will
if you we should would patch kernel driver build failure compile release branch commit merge revert
thread lock queue buffer page cache memory leak pointer null crash trace stack register index table
schema query server client socket packet header parser token archive mailing list message reply
subject reference import export policy reader writer stream file system disk block sector journal
recovery test suite regression bisect version config option flag default value limit size time zone
clock date signed unsigned integer overflow check bound array slice string byte char line blank field
performance latency throughput benchmark profile sample measure figure result report review comment
style naming documentation manual example question answer problem solution idea proposal draft final
objection agree disagree thanks regards please see attached below above earlier discussion consensus
vote maintainer author reviewer tester user install package dependency library module function call
return error warning fault retry abort timeout signal handler process fork exec shell script python
perl rust compiler linker loader object symbol debug info print output input verbose quiet""".split()
HOSTS = ["example.org", "lists.example.org", "mail.example.com", "kernel.example", "uni.example.edu",
         "gmail.example", "corp.example.net", "isp.example", "debian.example", "cs.example.ac"]
FIRST = ["anna", "bob", "carol", "dave", "erin", "frank", "grace", "heidi", "ivan", "judy", "karl", "lena",
         "mats", "nina", "olaf", "petra", "quinn", "rosa", "sven", "tina", "uwe", "vera", "walt", "xenia",
         "yuri", "zoe"]
STOCK = ["build failure", "question", "patch", "release schedule", "test results", "hello", "problem",
         "meeting notes", "[ANNOUNCE] new version", "status"]
MON = ["Jan", "Feb", "Mar", "Apr", "May", "Jun", "Jul", "Aug", "Sep", "Oct", "Nov", "Dec"]
DAY = ["Mon", "Tue", "Wed", "Thu", "Fri", "Sat", "Sun"]
NUMZ = ["+0000", "+0100", "+0200", "-0500", "-0400", "-0800", "-0700", "+0900", "+0530", "+1000", "-0300"]
NAMEZ = [("GMT", 0), ("UT", 0), ("EST", -18000), ("EDT", -14400), ("CST", -21600), ("PST", -28800),
         ("PDT", -25200), ("MST", -25200)]


def zsec(z):
    s = int(z[1:3]) * 3600 + int(z[3:5]) * 60
    return -s if z[0] == "-" else s


class Gen:
    def __init__(self, a):
        self.a = a
        self.r = r = random.Random(a.seed)
        t0 = datetime.datetime.strptime(a.start, "%Y-%m-%d")
        self.t = calendar.timegm(t0.timetuple())
        self.step = a.years * 365.25 * 86400 / max(1, a.n)
        # A pool of paragraphs makes the bodies; drawn by slices, so it streams.
        self.paras = []
        for _ in range(3000):
            lines, line, want = [], [], r.randint(1, 9)
            while len(lines) < want:
                line.append(r.choice(WORDS))
                if sum(map(len, line)) + len(line) > r.randint(55, 72):
                    lines.append(" ".join(line)); line = []
            lines[-1] += "."
            self.paras.append(lines)
        self.code = [["+" + "\t" * r.randint(0, 3) + " ".join(r.choice(WORDS) for _ in range(r.randint(1, 7)))
                      for _ in range(r.randint(5, 40))] for _ in range(300)]
        self.people = []
        for i in range(max(20, min(2500, a.n // 20))):
            f = r.choice(FIRST)
            ad = "%s%s@%s" % (f, r.choice(["", ".%s" % r.choice(FIRST), str(i)]), r.choice(HOSTS))
            self.people.append((f.capitalize() + " " + r.choice(WORDS).capitalize(), ad, r.randint(0, 4),
                                r.choice(NUMZ)))
        self.recent = []          # (thread number, index in its thread)
        self.threads = []         # of lists of (id, refs, topic, who)
        self.live = []

    def who(self):
        # few people write much
        return self.people[int(len(self.people) * self.r.random() ** 3)]

    def newid(self, n, t, who):
        r, host = self.r, who[1].split("@")[1]
        k = who[2]
        if k == 0:
            return "%s.%d.%05d@%s" % (time.strftime("%Y%m%d%H%M%S", time.gmtime(t)), n, r.randrange(99999), host)
        if k == 1:
            return "CA%s%d=%s@mail.gmail.example" % ("".join(r.choices("ABCDEFabcdefxyz0123456789_-+", k=24)), n, r.randrange(99))
        if k == 2:
            return "87%x.fsf@%s" % (r.getrandbits(36) * 100000 + n, host)
        if k == 3:
            return "%08X.%07d@%s" % (t & 0xffffffff, n, host)
        return "Pine.LNX.4.44.%s.%d-%d@%s" % (time.strftime("%y%m%d%H%M", time.gmtime(t)), n, r.randrange(9999), host)

    def date(self, t, who):
        """(text, 0) in the many forms; '' when missing"""
        r = self.r
        x = r.random()
        if x < 0.003:
            return None
        if x < 0.006:
            return r.choice(["yesterday", "30 Feb 2003 12:00:00 +0000", "Tue, 4 Mar 12003 12:00", "??",
                             "2003-03-04T10:00:00Z", "Mon, 32 Jan 2004 10:00:00 +0100"])
        if x < 0.009:
            t += r.choice([-1, 1]) * r.randint(1, 9) * 365 * 86400
        elif x < 0.2:
            t -= r.randint(0, 7200)
        else:
            t -= r.randint(0, 120)
        if 0.2 < x < 0.27:
            name, off = r.choice(NAMEZ)
            z = name
        else:
            z = who[3]
            off = zsec(z)
        g = time.gmtime(t + off)
        wd, mo = DAY[g.tm_wday], MON[g.tm_mon - 1]
        hms = "%02d:%02d:%02d" % (g.tm_hour, g.tm_min, g.tm_sec)
        if 0.3 < x < 0.42:
            return "%s, %d %s %d %s %s (%s)" % (wd, g.tm_mday, mo, g.tm_year, hms, z, r.choice(["CET", "PST", "EDT", "Mitteleuropaeische Zeit"]))
        if 0.42 < x < 0.47:
            return "%d %s %d %s %s" % (g.tm_mday, mo, g.tm_year, hms, z)
        if 0.47 < x < 0.485:
            return "%s, %d %s %d %02d:%02d %s" % (wd, g.tm_mday, mo, g.tm_year, g.tm_hour, g.tm_min, z)
        if 0.485 < x < 0.495:
            return "%s, %02d %s %02d %s %s" % (wd, g.tm_mday, mo, g.tm_year % 100, hms, z)
        if 0.495 < x < 0.497:
            return "%s, %d %s %d %s %s" % (wd, g.tm_mday, mo, g.tm_year - 1900, hms, z) if g.tm_year < 2899 else "x"
        if 0.497 < x < 0.499:
            return "%s %s %2d %s %d" % (wd, mo, g.tm_mday, hms, g.tm_year)
        if 0.499 < x < 0.501:
            return "%s, %d %s %d %s" % (wd, g.tm_mday, mo, g.tm_year, hms)
        if 0.501 < x < 0.503:
            return "%s, %d %s %d %s zzz" % (wd, g.tm_mday, mo, g.tm_year, hms)
        if 0.6 < x < 0.65:
            return "%s,  %d %s %d %s %s" % (wd, g.tm_mday, mo.upper(), g.tm_year, hms, z)
        return "%s, %02d %s %d %s %s" % (wd, g.tm_mday, mo, g.tm_year, hms, z)

    def subject(self, topic, reply):
        r, L = self.r, "[%s] " % self.a.list
        x = r.random()
        if x < 0.002:
            return None
        if x < 0.004:
            return ""
        if not reply:
            if x < 0.5:
                return L + topic
            if x < 0.52:
                return "Fwd: " + topic
            if x < 0.53:
                return topic + " (fwd)"
            if x < 0.54:
                return "[Fwd: %s]" % topic
            return topic
        if x < 0.40:
            return "Re: " + L + topic
        if x < 0.75:
            return "Re: " + topic
        if x < 0.80:
            return L + "Re: " + topic
        if x < 0.84:
            return "RE: " + L + topic
        if x < 0.86:
            return "Re[2]: " + topic
        if x < 0.87:
            return "Re: Re: " + topic
        if x < 0.88:
            return "Re : " + topic
        if x < 0.90:
            return "re:\t" + topic
        if x < 0.91:
            return "Re: " + topic + " (fwd)"
        if x < 0.92:
            return "Fwd: Re: " + topic
        if x < 0.93:
            return "AW: " + topic
        if x < 0.94:
            return topic
        if x < 0.97 and " " in topic:
            h, t = topic.split(" ", 1)
            return "Re: " + L + h + "\n " + t
        return "Re: " + topic

    def body(self, reply, size):
        r, out, n = self.r, [], 0
        if r.random() < 0.04:
            out.append("Gr\u00fc\u00dfe, \u00e9t\u00e9 \u2014 " + r.choice(WORDS)); n += 30
        if reply:
            out.append("On %s, someone wrote:" % r.choice(DAY)); n += 24
            for l in r.choice(self.paras):
                out.append("> " + l); n += len(l) + 3
            out.append(""); n += 1
        big = size > 20000
        while n < size:
            y = r.random()
            if big and y < 0.5:
                blk = base64.b64encode(r.randbytes(57 * 40)).decode()
                ls = [blk[i:i + 76] for i in range(0, len(blk), 76)]
            elif y < 0.15 or (big and y < 0.8):
                ls = r.choice(self.code)
            else:
                ls = r.choice(self.paras)
            out.extend(ls); out.append("")
            n += sum(map(len, ls)) + len(ls) + 1
        if r.random() < 0.7:
            out += ["-- ", r.choice(WORDS) + " " + r.choice(WORDS), "_" * 47, "%s mailing list" % self.a.list,
                    "%s@lists.example.org" % self.a.list]
        else:
            while out and out[-1] == "":
                out.pop()
        if r.random() < self.a.traps:
            k = r.randrange(4)
            at = out.index("") if "" in out else len(out)
            if k == 0:
                out[at:at] = ["", "From here on we sail.", ""]
            elif k == 1:
                out[at:at] = ["no empty line before this:", "From bob@example.org Wed Mar 12 10:30:00 2003"]
            elif k == 2:
                out[at:at] = ["", ">From bob@example.org Wed Mar 12 10:30:00 2003", ">From the start"]
            else:
                out[at:at] = ["", "From a b Tue Mar 4 10:00:00 2003", ""]
        return out

    def messages(self):
        a, r = self.a, self.r
        for n in range(a.n):
            self.t += r.expovariate(1.0) * self.step
            t = int(self.t)
            who = self.who()
            reply = bool(self.live) and r.random() > 0.26
            mid = self.newid(n, t, who)
            if reply:
                k = self.live[-1 - int(min(len(self.live), 60) * r.random() ** 2)]
                th = self.threads[k]
                p = th[-1 - int(len(th) * r.random() ** 2)]
                topic, prefs = p[2], p[1] + [p[0]]
                if r.random() < 0.01:
                    topic = r.choice(WORDS) + " (was: " + topic + ")"
                th.append((mid, prefs[-40:], topic, who))
                if r.random() < 0.3:
                    self.live.append(k)
            else:
                x = r.random()
                topic = r.choice(STOCK) if x < 0.03 else " ".join(r.choices(WORDS, k=r.randint(3, 8)))
                if x > 0.97:
                    topic = "=?UTF-8?Q?" + topic.replace(" ", "_") + "_=C3=A9?="
                elif x > 0.85:
                    topic = "[PATCH %s] %s" % (r.choice(["", "v2", "1/3", "2/3", "RFC"]), topic)
                self.threads.append([(mid, [], topic, who)])
                k = len(self.threads) - 1
                self.live.append(k)
                prefs = []
            if len(self.live) > 400:
                del self.live[:200]
            h = []
            # trace and odd headers, as real lists have
            h.append("Received: from %s (%s [192.0.2.%d])\n\tby lists.example.org (Postfix) with ESMTP id %010X\n\tfor <%s@lists.example.org>; %s" % (
                r.choice(HOSTS), r.choice(HOSTS), r.randrange(256), r.getrandbits(40), a.list,
                time.strftime("%a, %d %b %Y %H:%M:%S +0000", time.gmtime(t))))
            x = r.random()
            if x > 0.001:
                h.append(("From: %s <%s>" if x < 0.7 else 'From: "%s" <%s>' if x < 0.9 else "From:%.0s %s" if x < 0.95
                          else "From: %.0s%s") % (who[0], who[1]) if x < 0.95 else "From: %s (%s)" % (who[1], who[0]))
            h.append("To: %s@lists.example.org" % a.list)
            if r.random() < 0.4:
                h.append("Cc: " + ",\n\t".join(self.who()[1] for _ in range(r.randint(1, 4))))
            s = self.subject(topic, reply)
            if s is not None:
                h.append("Subject: " + s)
            d = self.date(t, who)
            if d is not None:
                h.append("Date: " + d)
            x = r.random()
            shown = mid
            if x < 0.005:
                shown = None
            elif x < 0.008 and reply:
                shown = prefs[-1]                       # doubled id
            if shown is not None:
                h.append(("Message-ID: <%s>" if who[2] != 3 else "Message-Id: <%s>") % shown)
            if reply:
                x = r.random()
                pid, refs = prefs[-1], list(prefs)
                if x < 0.06:
                    refs, pid = [], None
                elif x < 0.18:
                    refs = []
                elif x < 0.22:
                    refs = [("gone.%d@elsewhere.example" % r.randrange(2 * a.n // 100 + 5))] + refs[-1:] if r.random() < 0.5 else ["gone.%d@elsewhere.example" % r.randrange(a.n // 50 + 5)]
                    pid = refs[-1]
                elif x < 0.225:
                    r.shuffle(refs)
                elif x < 0.228:
                    refs.append(mid)
                elif x < 0.35 and len(refs) > 10:
                    refs = refs[:1] + refs[-9:]
                elif x < 0.36 and len(refs) > 1:
                    del refs[r.randrange(len(refs) - 1)]
                if pid:
                    y = r.random()
                    if y < 0.06:
                        h.append('In-Reply-To: Message from %s of "%s." <%s>' % (who[1], time.strftime("%a, %d %b %Y %H:%M:%S GMT", time.gmtime(t - 9999)), pid))
                    elif y < 0.08:
                        h.append("In-Reply-To: Your message of Monday\n <%s> (%s's note)" % (pid, who[0]))
                    elif y < 0.93:
                        h.append("In-Reply-To: <%s>" % pid)
                if refs:
                    toks = ["<%s>" % i for i in refs]
                    y = r.random()
                    if y < 0.004:
                        toks[-1] = toks[-1][:-1]                         # no ">"
                    elif y < 0.008:
                        k2 = r.randrange(len(toks)); m = len(toks[k2]) // 2
                        toks[k2] = toks[k2][:m] + "\n\t" + toks[k2][m:]  # id cut in two
                    elif y < 0.010:
                        toks.insert(0, "(was elsewhere)")
                    sep = "\n\t" if y < 0.5 else "\n " if y < 0.8 else " "
                    h.append("References: " + sep.join(toks))
            if r.random() < 0.5:
                h += ["MIME-Version: 1.0", "Content-Type: text/plain; charset=%s" % r.choice(["us-ascii", "UTF-8", "ISO-8859-1"]),
                      "Content-Transfer-Encoding: %s" % r.choice(["7bit", "8bit"])]
            if r.random() < 0.6:
                h += ["List-Id: %s list <%s.lists.example.org>" % (a.list, a.list), "X-Mailer: %s %d.%d" % (r.choice(["Mutt", "Gnus", "Pine", "elm", "MH-E"]), r.randrange(9), r.randrange(30)),
                      "Precedence: list", "Errors-To: %s-bounces@lists.example.org" % a.list, "Sender: %s-bounces@lists.example.org" % a.list]
            if r.random() < 0.002:
                h.insert(r.randrange(len(h)), r.choice(["X-Empty:", "this line is no header", "X Bad Name: x", ">From someone Tue Mar  4 10:00:00 2003"]))
            z = r.random()
            size = int(r.lognormvariate(7.45, 0.85)) if z < 0.985 else min(195000, int(3000 * r.paretovariate(0.75)))
            lines = "\n".join(h).split("\n") + [""] + self.body(reply, size)
            nl = "\r\n" if r.random() < a.crlf else "\n"
            text = nl.join(lines) + nl
            data = text.encode("latin-1", "replace") if r.random() < 0.25 else text.encode("utf-8")
            g = time.gmtime(t)
            sender, stamp = who[1], "%s %s %2d %02d:%02d:%02d %04d" % (DAY[g.tm_wday], MON[g.tm_mon - 1], g.tm_mday, g.tm_hour, g.tm_min, g.tm_sec, g.tm_year)
            if a.seps == "wide":
                x = r.random()
                if x < 0.08:
                    sender = sender.replace("@", " at ") + " "
                elif x < 0.10:
                    sender = "-"
                elif x < 0.13:
                    g2 = time.gmtime(t + zsec(who[3]))
                    stamp = "%s %s %2d %02d:%02d:%02d %s %04d" % (DAY[g2.tm_wday], MON[g2.tm_mon - 1], g2.tm_mday, g2.tm_hour, g2.tm_min, g2.tm_sec, who[3], g2.tm_year)
                elif x < 0.15:
                    stamp = "%s %s %2d %02d:%02d %04d" % (DAY[g.tm_wday], MON[g.tm_mon - 1], g.tm_mday, g.tm_hour, g.tm_min, g.tm_year)
            yield ("From %s %s\n" % (sender, stamp)).encode(), data, t


def main():
    p = argparse.ArgumentParser()
    p.add_argument("--n", type=int, default=50000)
    p.add_argument("--seed", type=int, default=1)
    p.add_argument("--list", default="soc")
    p.add_argument("--start", default="2003-01-01")
    p.add_argument("--years", type=float, default=8)
    p.add_argument("--seps", choices=["rfc", "wide"], default="rfc")
    p.add_argument("--traps", type=float, default=0.0)
    p.add_argument("--crlf", type=float, default=0.03)
    p.add_argument("--out")
    p.add_argument("--maildir", help="also write one file a message (cur/NNNNNN.gen:2,S, time of the file = arrival)")
    p.add_argument("--stats")
    a = p.parse_args()
    g = Gen(a)
    out = open(a.out, "wb", buffering=1 << 20) if a.out else sys.stdout.buffer
    if a.maildir:
        for d in ("cur", "new", "tmp"):
            os.makedirs(os.path.join(a.maildir, d), exist_ok=True)
    sizes, total = [], 0
    for n, (sep, data, t) in enumerate(g.messages()):
        out.write(sep); out.write(data); out.write(b"\n")
        sizes.append(len(data)); total += len(sep) + len(data) + 1
        if a.maildir:
            f = os.path.join(a.maildir, "cur", "%07d.gen:2,S" % n)
            with open(f, "wb") as h:
                h.write(data)
            os.utime(f, (t, t))
    out.flush()
    sizes.sort()
    q = lambda x: sizes[min(len(sizes) - 1, int(len(sizes) * x))] if sizes else 0
    st = dict(messages=len(sizes), bytes=total, threads_begun=len(g.threads), median=q(.5), p90=q(.9), p99=q(.99), p999=q(.999),
              max=sizes[-1] if sizes else 0, longest_thread=max(map(len, g.threads), default=0), seed=a.seed)
    print(json.dumps(st), file=sys.stderr)
    if a.stats:
        json.dump(st, open(a.stats, "w"))


if __name__ == "__main__":
    main()
