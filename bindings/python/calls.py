"""Each function with what it has to return, and with what it has to refuse. The last line is 'N passed, M failed'."""
import copy
import pickle
import sys

import luvazhimba as luv

MBOX = (b"\nFrom a@b Tue Mar  4 10:00:00 2003\nMessage-ID: <a@b>\n\nx\n\n"
        b"From c@d Tue Mar  4 11:00:00 2003\nReferences: <a@b>\n\n")
MESSAGES = [luv.Message(35, 56, 1046772000), luv.Message(91, 109, 1046775600)]
MESSAGE = (b"From: Anna\n <a@b>\nSubject: Re: Hello\nMessage-ID: <a@b>\nReferences: <c@d> <e@f>\n"
           b"Date: Tue, 4 Mar 2003 10:00:00 +0100\n\nx\n")
SHORT = b"From a@b Tue Mar  4 10:00:00 2003\nSubject: x\n\n" * 1_000
MANY = b"References: " + b" ".join(b"<%d@x>" % it for it in range(5_000)) + b"\n\n"


def refusal(call, *words):
    """Returns the number and the offset of a refusal, the name of another error, or what the call returned."""
    try:
        return call(*words)
    except luv.Refused as refused:
        return refused.number, refused.offset
    except Exception as error:
        return type(error).__name__


def carried(how):
    """Returns what a refusal says that was copied, or sent to another process."""
    it = how(luv.Refused(5, 3))
    return it.number, it.offset, str(it)


CASES = [
    (luv.base_subject(b"Re: [soc] Hello (fwd)"), luv.Base(b"hello", True)),
    (luv.base_subject(b"a\tB"), luv.Base(b"a b", False)),
    (luv.base_subject(b""), luv.Base(b"", False)),
    (luv.base_subject(b"Re: \0\xe9"), luv.Base(b"\0\xe9", True)),
    (luv.base_subject(b"Re: " * 250_000 + b"x"), luv.Base(b"x", True)),
    (luv.message_ids(b'Message-ID: <a@b>\nReferences: <"c d"@e> (x)\n <f@g>\n\n'), luv.Ids(b"a@b", [b"c d@e", b"f@g"])),
    (luv.message_ids(b"In-Reply-To: <a@b> <c@d>\n\n"), luv.Ids(None, [b"a@b"])),
    (luv.message_ids(b""), luv.Ids(None, [])),
    (luv.message_ids(MANY), luv.Ids(None, [b"%d@x" % it for it in range(5_000)])),
    (luv.sent_date(b"Date: Tue, 4 Mar 2003 10:00:00 +0100\n\n", 5), 1046768400),
    (luv.sent_date(b"", -1), -1),
    (refusal(luv.sent_date, b"", 253_370_764_800), (luv.NO_INSTANT, None)),
    (luv.fields(MESSAGE, 5), luv.Fields(b" Re: Hello", b" Anna <a@b>", b"a@b", [b"c@d", b"e@f"], 1046768400, True)),
    (luv.fields(b"In-Reply-To: <a@b> <c@d>\n\n", 5), luv.Fields(b"", b"", None, [b"a@b"], 5, False)),
    (luv.fields(MANY, 5), luv.Fields(b"", b"", None, [b"%d@x" % it for it in range(5_000)], 5, False)),
    (luv.fields(b"Date: Tue, 4 Mar 2003 10:00:00 +0100\n\n", 1046768400), luv.Fields(b"", b"", None, [], 1046768400, True)),
    (refusal(luv.fields, b"", 253_370_764_800), (luv.NO_INSTANT, None)),
    (refusal(luv.fields, b"", (1 << 64) + 5), (luv.NO_INSTANT, None)),
    (refusal(luv.fields, b"", None), "TypeError"),
    (luv.fields_of_mbox(MBOX), (MESSAGES, [luv.Fields(b"", b"", b"a@b", [], 1046772000, False), luv.Fields(b"", b"", None, [b"a@b"], 1046775600, False)])),
    (luv.fields_of_mbox(b""), ([], [])),
    (luv.fields_of_mbox(bytearray(SHORT)), (luv.cut(SHORT), [luv.Fields(b" x", b"", None, [], 1046772000, False)] * 1_000)),
    (refusal(luv.fields_of_mbox, b"\n\nno\n"), (luv.NO_MBOX, 2)),
    (luv.cut(MBOX), MESSAGES),
    (luv.cut(b""), []),
    (len(luv.cut(b"From a@b Tue Mar  4 10:00:00 2003\n\n" * 1_000)), 1_000),
    (refusal(luv.cut, b"\n\nno\n"), (luv.NO_MBOX, 2)),
    (luv.threads(MBOX, MESSAGES), [luv.Row(0, 0), luv.Row(1, 1)]),
    (luv.threads(MBOX, []), []),
    (luv.threads(MBOX, MESSAGES[1:]), [luv.Row(0, 0)]),
    (luv.threads_of_mbox(MBOX, merge=False), [luv.Row(0, 0), luv.Row(1, 1)]),
    (luv.threads_of_mbox(MBOX.replace(b"<a@b>", b"<m@x>").replace(b"Message-ID", b"References")),
     [luv.Row(0, None), luv.Row(1, 0), luv.Row(1, 1)]),
    (refusal(luv.threads, MBOX, [luv.Message(0, len(MBOX) + 1, 5)]), (luv.OUTSIDE, None)),
    (refusal(luv.threads, MBOX, [luv.Message(0, 1, 1 << 62)]), (luv.NO_INSTANT, None)),
    (refusal(luv.threads_of_mbox, b"\nno\n"), (luv.NO_MBOX, 1)),
    # numbers that a call cannot hand over, and bytes that are no `bytes`
    (refusal(luv.sent_date, b"", (1 << 64) + 5), (luv.NO_INSTANT, None)),
    (refusal(luv.threads, MBOX, [luv.Message(0, 1, 1 << 63)]), (luv.NO_INSTANT, None)),
    (refusal(luv.threads, MBOX, [luv.Message(-1, 1, 5)]), (luv.OUTSIDE, None)),
    (refusal(luv.threads, MBOX, [luv.Message(0, 1 << 64, 5)]), (luv.OUTSIDE, None)),
    (refusal(luv.threads, MBOX, [luv.Message(0, 1 << 64, 1.5)]), (luv.OUTSIDE, None)),
    (refusal(luv.threads, MBOX, [luv.Message(0, 1.5, 5)]), "TypeError"),
    (refusal(luv.sent_date, b"", 1.5), "TypeError"),
    (refusal(luv.cut, "From a@b"), "TypeError"),
    (refusal(luv.base_subject, 5), "TypeError"),
    (refusal(luv.base_subject, bytearray(b"Re: a")), luv.Base(b"a", True)),
    (refusal(luv.message_ids, memoryview(b"Message-ID: <a@b>\n")), luv.Ids(b"a@b", [])),
    (refusal(luv.cut, bytearray(MBOX)), MESSAGES),
    (refusal(luv.threads_of_mbox, memoryview(MBOX)), [luv.Row(0, 0), luv.Row(1, 1)]),
    # a refusal goes from one process to another
    *[(refusal(carried, how), (5, 3, "the first line that is not empty is no separator line (it begins at 3)"))
      for how in (lambda it: it, copy.copy, lambda it: pickle.loads(pickle.dumps(it)))],
    # numbers that no call of this version answers
    *[(refusal(lambda: str(luv.Refused(it))), f"the library answers {it}, which this call does not have") for it in (1, 7, 255)],
]

if __name__ == "__main__":
    wrong = [(found, wanted) for found, wanted in CASES if found != wanted]
    for found, wanted in wrong:
        print(f"FAILED {found!r:.200} where {wanted!r:.200} was wanted")
    print(f"{len(CASES) - len(wrong)} passed, {len(wrong)} failed")
    sys.exit(1 if wrong else 0)
