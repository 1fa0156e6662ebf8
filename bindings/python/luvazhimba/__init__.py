"""Readers of mail that are proved: the fields of messages, base subjects, the messages of an mbox, and threads.

    import luvazhimba
    mbox = open("seeds.mbox", "rb").read()
    for row in luvazhimba.threads_of_mbox(mbox):
        print("  " * row.depth, row.place)

What each function gives is said by a contract of the library, and proved; that this module hands over what it is given and gives
back what it got is tested. Every function raises `Refused` where the library refuses, and MemoryError where no memory is left.
"""
import ctypes
import os
import pathlib
import secrets
import struct
from ctypes import POINTER, byref, c_bool, c_char, c_char_p, c_int64, c_size_t, c_uint8, c_uint64
from operator import index
from typing import Any, Callable, Iterable, List, NamedTuple, Optional, Tuple

__all__ = ["Base", "Fields", "Ids", "Message", "Refused", "Row", "base_subject", "cut", "fields", "fields_of_mbox", "message_ids",
           "sent_date", "threads", "threads_of_mbox", "NO_ROOM", "NO_MEMORY", "NO_INSTANT", "OUTSIDE", "NO_MBOX", "TOO_LONG"]
__version__ = "0.3.0"


class Base(NamedTuple):
    """A base subject, and whether its subject marks a reply or a forward."""
    text: bytes
    is_reply: bool


class Ids(NamedTuple):
    """The id of a message, None where it has none, and the ids that it refers to, oldest first."""
    own: Optional[bytes]
    references: List[bytes]


class Fields(NamedTuple):
    """What a message says of itself: the bodies of Subject and From, unfolded and else as they are, its ids, and when it was sent.

    Where `is_dated` is false, its Date field is no date, and `sent` is the arrival."""
    subject: bytes
    author: bytes
    own: Optional[bytes]
    references: List[bytes]
    sent: int
    is_dated: bool


class Message(NamedTuple):
    """Where a message is, as in `mbox[start:end]`, and when it arrived, in seconds since 1970."""
    start: int
    end: int
    arrival: int


class Row(NamedTuple):
    """A row of threads: its depth, from 0, and which message stands there, from 0; None where others refer to one that is not there."""
    depth: int
    place: Optional[int]


class Refused(ValueError):
    """The library refuses. `number` is the number of the refusal, `offset` where the line begins that makes the bytes no mbox."""

    def __init__(self, number: int, offset: Optional[int] = None) -> None:
        # (an exception is copied, and sent to another process, as the words that it was made with)
        super().__init__(number, offset)
        self.number, self.offset = number, offset

    def __str__(self) -> str:
        said = _REFUSALS.get(self.number, f"the library answers {self.number}, which this call does not have")
        return said + (f" (it begins at {self.offset})" if self.offset is not None else "")


NO_ROOM, NO_MEMORY, NO_INSTANT, OUTSIDE, NO_MBOX, TOO_LONG = range(1, 7)
_REFUSALS = {
    NO_INSTANT: "an arrival lies outside the years 1900 to 9998",
    OUTSIDE: "a message lies outside the bytes",
    NO_MBOX: "the first line that is not empty is no separator line",
    TOO_LONG: "there are more than 2^40 elements",
}


class _Base(ctypes.Structure):
    _fields_ = [("len", c_size_t), ("is_reply", c_bool)]


class _Ids(ctypes.Structure):
    _fields_ = [("own", c_size_t), ("count", c_size_t), ("len", c_size_t)]


class _Fields(ctypes.Structure):
    _fields_ = [("sent", c_int64), ("own", c_size_t), ("count", c_size_t), ("len", c_size_t), ("is_dated", c_bool)]


class _Totals(ctypes.Structure):
    _fields_ = [("messages", c_size_t), ("count", c_size_t), ("len", c_size_t)]


# What an `int64_t` holds. Which of these are instants says the library.
_INT64 = range(-(1 << 63), 1 << 63)

# (as luv_message, luv_fields and luv_row have them)
_MESSAGE, _FIELDS, _ROW = struct.Struct("@NNq"), struct.Struct("@qNNN?7x"), struct.Struct("@NN?7x")


def _library() -> str:
    """Return where the library lies: where LUVAZHIMBA_LIB says, in this package, or where bindings/build.sh makes it."""
    here = pathlib.Path(__file__).resolve().parent
    packaged, built = here / "libluvazhimba.so", here.parents[1] / "out" / "libluvazhimba.so"
    return os.environ.get("LUVAZHIMBA_LIB") or str(built if built.is_file() and not packaged.is_file() else packaged)


def _load(path: str) -> ctypes.CDLL:
    try:
        return ctypes.CDLL(path)
    except OSError as error:
        raise ImportError(f"{error}: bindings/build.sh makes the library, and LUVAZHIMBA_LIB names another one") from error


_LIBRARY = _load(_library())


def _export(name: str, *words: type) -> Callable[..., int]:
    export = getattr(_LIBRARY, name)
    export.restype, export.argtypes = c_uint8, words
    return export


_BYTES, _OUT = (c_char_p, c_size_t), (ctypes.c_void_p, c_size_t)
_base_subject = _export("luv_base_subject", *_BYTES, *_OUT, POINTER(_Base))
_message_ids = _export("luv_message_ids", *_BYTES, *_OUT, *_OUT, POINTER(_Ids))
_sent_date = _export("luv_sent_date", *_BYTES, c_int64, POINTER(c_int64))
_fields = _export("luv_fields", *_BYTES, c_int64, *_OUT, *_OUT, POINTER(_Fields))
_fields_of_mbox = _export("luv_fields_of_mbox", *_BYTES, *_OUT, *_OUT, *_OUT, *_OUT, POINTER(_Totals))
_cut = _export("luv_cut", *_BYTES, *_OUT, POINTER(c_size_t))
_threads = _export("luv_threads", *_BYTES, *_OUT, c_bool, c_uint64, c_uint64, *_OUT, POINTER(c_size_t))
_threads_of_mbox = _export("luv_threads_of_mbox", *_BYTES, c_bool, c_uint64, c_uint64, *_OUT, POINTER(c_size_t))


# Room that is enough for most messages and subjects: types of arrays are slow to make, so these are made once.
_TEXTS_ROOM, _LENS_ROOM = 1_000, 20
_Texts, _Lens = c_char * _TEXTS_ROOM, c_size_t * _LENS_ROOM


def _bytes(data: Any) -> bytes:
    """Return bytes as they are, and any other bytes-like object as a copy; anything else is a TypeError."""
    return data if isinstance(data, bytes) else bytes(memoryview(data))


def _refuse(status: int, offset: Optional[int] = None) -> None:
    """Raise what a status other than 0 means."""
    if status == NO_MEMORY:
        raise MemoryError
    if status:
        raise Refused(status, offset if status == NO_MBOX else None)


def base_subject(subject: bytes) -> Base:
    """Return the base of an unfolded subject (RFC 5256, section 2.1), in ASCII lower case."""
    subject = _bytes(subject)
    room, found = max(len(subject), _TEXTS_ROOM), _Base()
    text = _Texts() if room == _TEXTS_ROOM else (c_char * room)()
    if status := _base_subject(subject, len(subject), text, room, byref(found)):
        _refuse(status)
    return Base(text[:found.len], found.is_reply)


def _split(text: bytes, lens: Iterable[int]) -> List[bytes]:
    """Return the texts that are one behind the other in this one, each of which is so long."""
    texts, at = [], 0
    for length in lens:
        texts.append(text[at:at + length])
        at += length
    return texts


def message_ids(message: bytes) -> Ids:
    """Return the ids that a message names (RFC 5322, section 3.6.4), each as `left@right`."""
    message = _bytes(message)
    texts, lens, found = _Texts(), _Lens(), _Ids()
    while status := _message_ids(message, len(message), texts, len(texts), lens, len(lens), byref(found)):
        if status != NO_ROOM:
            _refuse(status)
        texts, lens = (c_char * found.len)(), (c_size_t * found.count)()
    ids = _split(texts[:found.len], lens[:found.count])
    return Ids(ids[0] if found.own else None, ids[found.own:])


def sent_date(message: bytes, arrival: int) -> int:
    """Return when a message was sent that arrived then, in seconds since 1970: by its Date field, else the arrival."""
    message, sent = _bytes(message), c_int64()
    if index(arrival) not in _INT64:
        raise Refused(NO_INSTANT)
    if status := _sent_date(message, len(message), arrival, byref(sent)):
        _refuse(status)
    return sent.value


def _said(sent: int, own: int, is_dated: bool, texts: List[bytes]) -> Fields:
    """Return what a message says of itself that has these texts."""
    return Fields(texts[0], texts[1], texts[2] if own else None, texts[2 + own:], sent, is_dated)


def fields(message: bytes, arrival: int) -> Fields:
    """Return all that a message says of itself that arrived then: what `message_ids` and `sent_date` say, its subject and its From."""
    message = _bytes(message)
    if index(arrival) not in _INT64:
        raise Refused(NO_INSTANT)
    texts, lens, found = _Texts(), _Lens(), _Fields()
    while status := _fields(message, len(message), arrival, texts, len(texts), lens, len(lens), byref(found)):
        if status != NO_ROOM:
            _refuse(status)
        texts, lens = (c_char * found.len)(), (c_size_t * found.count)()
    return _said(found.sent, found.own, found.is_dated, _split(texts[:found.len], lens[:found.count]))


def _filled(call: Callable[..., int], layout: struct.Struct, room: int) -> memoryview:
    """Call with an array of this many elements, and again if that has no room; return the elements that were written."""
    count = c_size_t()
    while True:
        array = ctypes.create_string_buffer(room * layout.size)
        status = call(array, room, byref(count))
        if status != NO_ROOM:
            break
        room = count.value
    _refuse(status, count.value)
    return memoryview(array)[:count.value * layout.size]


def cut(mbox: bytes) -> List[Message]:
    """Return the messages of an mbox (RFC 4155), in order."""
    mbox = _bytes(mbox)
    found = _filled(lambda *out: _cut(mbox, len(mbox), *out), _MESSAGE, 64 + len(mbox) // 1_000)
    return list(map(Message._make, _MESSAGE.iter_unpack(found)))


def fields_of_mbox(mbox: bytes) -> Tuple[List[Message], List[Fields]]:
    """Return the messages of an mbox, as `cut` does, and what each says of itself, as `fields` does."""
    mbox = _bytes(mbox)
    found = _Totals(64 + len(mbox) // 1_000, 512 + len(mbox) // 200, 8_192 + len(mbox) // 8)
    while True:
        many, count, size = found.messages, found.count, found.len
        messages, rows, texts = map(ctypes.create_string_buffer, (many * _MESSAGE.size, many * _FIELDS.size, size))
        lens = (c_size_t * count)()
        status = _fields_of_mbox(mbox, len(mbox), messages, many, rows, many, texts, size, lens, count, byref(found))
        if status != NO_ROOM:
            break
    _refuse(status, found.messages)
    parts, said, at = _split(texts[:found.len], lens[:found.count]), [], 0
    for sent, own, several, _, is_dated in _FIELDS.iter_unpack(memoryview(rows)[:found.messages * _FIELDS.size]):
        said.append(_said(sent, own, is_dated, parts[at:at + several]))
        at += several
    return list(map(Message._make, _MESSAGE.iter_unpack(memoryview(messages)[:found.messages * _MESSAGE.size]))), said


def _rows(call: Callable[..., int], room: int) -> List[Row]:
    keys = secrets.randbits(64), secrets.randbits(64)
    found = _filled(lambda *out: call(*keys, *out), _ROW, room)
    return [Row(depth, place if is_message else None) for depth, place, is_message in _ROW.iter_unpack(found)]


def _packed(start: int, end: int, arrival: int) -> bytes:
    """Return a message as the library has it. A number that is too large for that is refused as the library refuses large ones."""
    try:
        return _MESSAGE.pack(start, end, arrival)
    except struct.error:
        if not 0 <= index(start) <= index(end) < 1 << 64:
            raise Refused(OUTSIDE) from None
        if index(arrival) not in _INT64:
            raise Refused(NO_INSTANT) from None
        raise


def threads(data: bytes, messages: Iterable[Message], merge: bool = True) -> List[Row]:
    """Return the threads of messages in some bytes (RFC 5256, section 3, REFERENCES), in preorder.

    Those of one base subject are gathered where `merge` is true."""
    data, places = _bytes(data), [_packed(*it) for it in messages]
    array, count = b"".join(places), len(places)
    return _rows(lambda *rest: _threads(data, len(data), array, count, merge, *rest), 2 * count)


def threads_of_mbox(mbox: bytes, merge: bool = True) -> List[Row]:
    """Return the threads of the messages of an mbox; a row's place is that of its message in the order of `cut`."""
    mbox = _bytes(mbox)
    return _rows(lambda *rest: _threads_of_mbox(mbox, len(mbox), merge, *rest), 64 + len(mbox) // 500)
