"""CESR streams judged, converted, walked, read and written by the proved library libcesr.so. Standard library only.

    import cesr
    report = cesr.judge("text", open("deck.cesr", "rb").read())
    report.passed, report.items, report.refusals, report.remainder

    live = cesr.Pieces("text")                    # a stream that arrives in pieces
    for item, refusal in live.feed(piece): ...    # the items that a piece completes
    live.end().passed                             # the report of all that came

Nothing here judges: every verdict, size, place and number is an answer of the library, which is lent memory. A stream is bytes, in the
form "text" (characters of URL-safe Base64) or "binary"; offsets, sizes and places count characters or bytes, from 0. A stream that changes
form at top level is judged by judge_mixed, in bytes. A call that is refused raises Refused, with the number and the place.

Assumes a library of the version below. It is looked for where CESR_LIBRARY says, then in ../../../lib from here, which is where `make
install` puts it, then where the system finds libraries.
"""
import ctypes
import os
import re
import struct
from collections import namedtuple

__version__ = "0.2.0"


class _Forms(dict):
    """Something for each form, and an error for what is none."""

    def __missing__(self, form):
        raise ValueError(f"a form is text or binary, not {form!r}")


LIMIT = _Forms(text=4194304, binary=3145728)
MIXED_LIMIT = 4194304
UNIT = _Forms(text=4, binary=3)

# Lengths of what the library is lent, as in cesr.h.
_TAG, _INFO, _ITEM, _COMPARED, _STATE, _INDEXED = 11, 7, 6, 5, 68, 7
_PIECES = 87
_UNFIT_LENGTH, _MALFORMED, _END = 12, 20, 255

_byte, _size = ctypes.c_uint8, ctypes.c_size_t
_bytes, _sizes = ctypes.c_char_p, ctypes.POINTER(_size)

# 0 is accepted, else the number of its refusal.
Item = namedtuple("Item", "index offset size verdict")
# Of a mixed stream; its form is "text", "binary" or "json". The body of a JSON item is not judged: its verdict is 0.
MixedItem = namedtuple("MixedItem", "index offset size verdict form")
# What the header of a JSON item says: four letters, two hexadecimal digits, and its length, which is its size.
Json = namedtuple("Json", "protocol version length")
Refusal = namedtuple("Refusal", "index number place")
Remainder = namedtuple("Remainder", "offset number")
# code is like M, 0H, 1AAM, 5B, 8AAB, -A, --A or -_.
Step = namedtuple("Step", "offset size depth code")
# text is the value of type A, and None for any other code.
Primitive = namedtuple("Primitive", "code size tag raw text")
# An indexed signature, as it stands within -K and -L; its code is like A, 0B or 2C.
Indexed = namedtuple("Indexed", "code size index ondex raw")
Comparison = namedtuple("Comparison", "passed failed not_reached beyond remainders_agree")


class Refused(ValueError):
    """A refusal: its number, and the place in characters or bytes."""

    def __init__(self, number, place):
        super().__init__(f"refused {number} at {place}: {words(number)}")
        self.number, self.place = number, place


def _found():
    """The library, and that it is of this version."""
    here = os.path.dirname(os.path.abspath(__file__))
    short = ".".join(__version__.split(".")[:2])
    beside = os.path.join(here, "..", "..", "..", "lib", f"libcesr.so.{short}")
    path = os.environ.get("CESR_LIBRARY") or (beside if os.path.exists(beside) else f"libcesr.so.{short}")
    library = ctypes.CDLL(path)
    library.cesr_version.restype = _bytes
    if library.cesr_version().decode() != __version__:
        raise ImportError(f"{path} is cesr {library.cesr_version().decode()}, and this module is of {__version__}")
    return library


_library = _found()


def _declared(name, *arguments, answers=_byte):
    call = getattr(_library, name)
    call.restype, call.argtypes = answers, arguments
    return call


def _both(name, *arguments):
    """A call's two forms."""
    return _Forms((form, _declared(f"cesr_{name}_{form}", *arguments)) for form in UNIT)


_words = _declared("cesr_words", _byte, answers=_bytes)
_to = _Forms(
    binary=_declared("cesr_text_to_binary", _bytes, _size, _bytes, _size, _sizes),
    text=_declared("cesr_binary_to_text", _bytes, _size, _bytes, _size, _sizes),
)
_report = _both("report", _bytes, _size, _bytes, _size, _sizes)
_report_mixed = _declared("cesr_report_mixed", _bytes, _size, _bytes, _size, _sizes)
_mixed_passed = _declared("cesr_mixed_passed", _bytes, _size, answers=ctypes.c_int)
_second = _Forms(
    text=_declared("cesr_second_text", _bytes, _size, _bytes, _size, _sizes),
    binary=_declared("cesr_second_binary", _bytes, _size, _bytes, _size, _bytes, _size, _sizes),
)
_passed = _declared("cesr_passed", _bytes, _size, _sizes)
_compare = _declared("cesr_compare", _bytes, _size, _bytes, _size, _sizes)
_read = _both("read", _bytes, _size, _size, _bytes, _size, _bytes, _sizes, _sizes)
_write = _both("write", _byte, _byte, _bytes, _size, _bytes, _size, _bytes, _size, _sizes)
_read_indexed = _Forms(
    text=_declared("cesr_read_indexed_text", _bytes, _size, _size, _bytes, _size, _sizes, _sizes),
    binary=_declared("cesr_read_indexed_binary", _bytes, _size, _size, _sizes, _sizes),
)
_write_indexed = _both("write_indexed", _byte, _byte, _size, _size, _bytes, _size, _bytes, _size, _sizes)
_group = _both("group", _byte, _size, _bytes, _size, _sizes)
_walk = _both("walk", _bytes, _size, _sizes, _sizes, _sizes)
_feed = _both("feed", _sizes, _bytes, _size, _bytes, _size, _bytes, _size, _sizes)
_end = _both("end", _sizes, _bytes, _size, _sizes)


def words(number):
    """What a number means, in the words of the papers; empty for what is none."""
    return _words(number).decode() if 0 <= number < 256 else ""


def version():
    """The library's version."""
    return _library.cesr_version().decode()


def _plain(data):
    """Bytes of anything that holds bytes; an error for a number or a string."""
    return data if isinstance(data, bytes) else memoryview(data).tobytes()


def _within(form, length):
    """Units that room is lent for: no more than those of the longest stream."""
    return min(length, LIMIT[form]) // UNIT[form]


def _filled(call, room, *given):
    """What a call writes into a buffer of so many bytes."""
    out, answer = ctypes.create_string_buffer(max(room, 1)), _size()
    number = call(*given, out, room, ctypes.byref(answer))
    if number:
        raise Refused(number, answer.value)
    return out.raw[: answer.value]


# ---- whole streams


def convert(to, stream):
    """A whole stream in the form `to`, from the other one. It looks at no codes."""
    stream, other = _plain(stream), "binary" if to == "text" else "text"
    return _filled(_to[to], _within(other, len(stream)) * UNIT[to], stream, len(stream))


class Report:
    """What the library says of a stream: items in order, a row for each refusal, and the remainder, or None."""

    def __init__(self, data):
        self.bytes = _plain(data)
        passed = _size()
        number = _passed(self.bytes, len(self.bytes), ctypes.byref(passed))
        if number:
            raise Refused(number, 0)
        # Has the stream a byte, and does every byte lie in an accepted item? The library answers it.
        self.passed = passed.value == 1
        rows, at = self._rows(0, ">IIB")
        self.items = [Item(index, *row) for index, row in enumerate(rows)]
        self._others(at)

    def _others(self, at):
        """The sections behind the items, and where they end."""
        rows, at = self._rows(at, ">IBI")
        self.refusals = [Refusal(*row) for row in rows]
        rows, at = self._rows(at, ">IB")
        self.remainder = Remainder(*rows[0]) if rows else None
        return at

    def _rows(self, at, shape):
        """The section at a place, and where the next one is."""
        (count,) = struct.unpack_from(">I", self.bytes, at)
        behind = at + 4 + count * struct.calcsize(shape)
        return list(struct.iter_unpack(shape, self.bytes[at + 4 : behind])), behind

    def __bool__(self):
        raise TypeError("a report is no pass: ask report.passed")

    def __str__(self):
        accepted = sum(item.verdict == 0 for item in self.items)
        rest = self.remainder
        left = f"remainder {rest.number} from {rest.offset}" if rest else "no remainder"
        items = "1 item" if len(self.items) == 1 else f"{len(self.items)} items"
        return f"{items}, {accepted} accepted, {len(self.items) - accepted} refused, {left}"


def judge(form, stream):
    """The report of a stream. A report is no pass: ask `passed`."""
    stream = _plain(stream)
    return Report(_filled(_report[form], 17 + 18 * _within(form, len(stream)), stream, len(stream)))


class MixedReport(Report):
    """The same of a mixed stream: items have a form each, and the bodies of `unjudged` JSON items were not judged."""

    def __init__(self, data):
        self.bytes = _plain(data)
        try:
            rows, at = self._rows(0, ">IIBB")
            self.items = [MixedItem(index, *row, ("text", "binary", "json")[form]) for index, (*row, form) in enumerate(rows)]
            behind = self._others(at)
        except (struct.error, IndexError):
            behind = None
        if behind != len(self.bytes):
            raise Refused(_MALFORMED, 0)
        self.unjudged = sum(item.form == "json" for item in self.items)
        # Has the stream a byte, and does every byte lie in an accepted item, JSON bodies unjudged? By the rows.
        self.passed = _mixed_passed(self.bytes, len(self.bytes)) == 1


def judge_mixed(stream):
    """The report of a stream that changes form at top level: groups in text, groups in binary, JSON. JSON bodies are not judged."""
    stream = _plain(stream)
    return MixedReport(_filled(_report_mixed, 17 + 19 * (min(len(stream), MIXED_LIMIT) // 3), stream, len(stream)))


def json_header(item):
    """What the header of a JSON item says: the bytes of one that judge_mixed has framed."""
    found = re.match(rb'\{"v":"([A-Z]{4})([0-9a-f]{2})JSON([0-9a-f]{6})_', _plain(item))
    if not found:
        raise ValueError("no JSON item of a mixed stream")
    protocol, version, length = (part.decode() for part in found.groups())
    return Json(protocol, version, int(length, 16))


def judge_second(form, stream):
    """The same by the second engine, which is plain and slower and shares little with the first."""
    stream = _plain(stream)
    units, given = _within(form, len(stream)), (stream, len(stream))
    if form == "binary":
        given += (ctypes.create_string_buffer(max(4 * units, 1)), 4 * units)
    return Report(_filled(_second[form], 17 + 18 * units, *given))


class Pieces:
    """A stream that arrives in pieces: items are told as they come to their end, and the end gives the report of all that came, wherever
    it was cut. It keeps the rows that it told and the library's state, and nothing of the stream."""

    def __init__(self, form):
        self.form, self._state = form, (_size * _PIECES)(UNIT[form])
        self._items, self._refusals = bytearray(), bytearray()

    def feed(self, piece):
        """The items that a piece completes, each an Item with its Refusal or None. Raises Refused 1 where it passes the limit, and 13 after
        the end; then nothing of it is taken in."""
        piece = _plain(piece)
        room, given = 9 * (_within(self.form, len(piece)) + 1), (_size * 2)()
        rows, refused = ctypes.create_string_buffer(room), ctypes.create_string_buffer(room)
        number = _feed[self.form](self._state, piece, len(piece), rows, room, refused, room, given)
        if number:
            raise Refused(number, 0)
        first, rows, refused = len(self._items) // 9, rows.raw[: given[0]], refused.raw[: given[1]]
        self._items += rows
        self._refusals += refused
        refusals = {row[0]: Refusal(*row) for row in struct.iter_unpack(">IBI", refused)}
        items = (Item(index, *row) for index, row in enumerate(struct.iter_unpack(">IIB", rows), first))
        return [(item, refusals.get(item.index)) for item in items]

    def end(self):
        """The report of all that came. No more pieces come: they are refused 13."""
        rest = _filled(_end[self.form], 5, self._state)
        sections = [(self._items, 9), (self._refusals, 9), (rest, 5)]
        return Report(b"".join(struct.pack(">I", len(rows) // row) + rows for rows, row in sections))


def compare(expected, report):
    """An expectation file's bytes held against those of a report."""
    expected, report, answer = _plain(expected), _plain(report), (_size * _COMPARED)()
    number = _compare(expected, len(expected), report, len(report), answer)
    if number:
        raise Refused(number, 0)
    return Comparison(*answer[:4], answer[4] == 1)


# ---- codes: the library's numbers, and characters for people

_FIXED, _IS_INDEXED = {1: "", 2: "0", 4: "1AA"}, 10
_SPELLINGS = {1: "[A-Za-z]", 2: "0[ -~]", 4: "1AA[ -~]", 5: "[456][ -~]", 6: "[789]AA[ -~]"}


def _spelt_indexed(selector, letter):
    return (chr(selector) if selector else "") + chr(letter)


def _spelt(chars, letter, lead):
    """Of an indexed item the last number is its selector."""
    if chars == _IS_INDEXED:
        return _spelt_indexed(lead, letter)
    letter = chr(letter)
    kinds = {5: f"{4 + lead}{letter}", 6: f"{7 + lead}AA{letter}", 7: f"-{letter}", 8: f"--{letter}", 9: "-_"}
    return kinds[chars] if chars in kinds else _FIXED[chars] + letter


def _named(code):
    """The two numbers of a primitive's code; a variable's selector tells small from large, and its lead follows from the raw length."""
    for chars, spelling in _SPELLINGS.items():
        if re.fullmatch(spelling, code, re.ASCII):
            return chars, ord(code[-1])
    raise ValueError(f"a primitive's code is like M, 0H, 1AAM, 4B or 7AAB, not {code!r}")


# ---- one primitive


def read(form, stream, at=0):
    """The primitive at an offset."""
    stream, unit, tag = _plain(stream), UNIT[form], ctypes.create_string_buffer(_TAG)
    info, answer = (_size * _INFO)(), _size()
    # No value has more than four characters for each unit that is left.
    out = ctypes.create_string_buffer(max(_within(form, len(stream) - min(at, len(stream))) * 4, 1))
    number = _read[form](stream, len(stream), at, out, len(out), tag, info, ctypes.byref(answer))
    if number:
        raise Refused(number, answer.value)
    chars, letter, units, start, length, tags, characters = info[:_INFO]
    raw = out.raw[:length] if form == "text" else stream[at + start : at + start + length]
    header, lead, text = chars - 4, 0, None
    if chars in (5, 6) and letter == ord("A"):
        text = out.raw[:characters].decode("ascii")
        lead = max(4 * (units - header) - characters - 1, 0)
    elif chars in (5, 6):
        lead = start - 3 * header
    return Primitive(_spelt(chars, letter, lead), units * unit, tag.raw[:tags].decode("ascii"), raw, text)


def _written(form, chars, letter, tag, raw):
    raw, tag = _plain(raw), tag.encode("latin-1")
    room = UNIT[form] * (len(raw) // 3 + 6)
    return _filled(_write[form], room, chars, letter, tag[:_TAG].ljust(_TAG, b"\0"), len(tag), raw, len(raw))


def write(form, code, raw=b"", tag=""):
    """A primitive as an item: its code, like M, 0H, 1AAM, 4B or 7AAB, with a raw value (of type A its text, as bytes) or tag characters."""
    return _written(form, *_named(code), tag, raw)


def write_variable(form, letter, raw):
    """A variable value of a type, like B, with the one code that holds it: the small one, or the large one where it does not fit there."""
    try:
        return _written(form, 5, ord(letter), "", raw)
    except Refused as refusal:
        if refusal.number != _UNFIT_LENGTH:
            raise
        return _written(form, 6, ord(letter), "", raw)


# ---- one indexed item


def read_indexed(form, stream, at=0):
    """The indexed item at an offset, by the table of signature groups."""
    stream, unit = _plain(stream), UNIT[form]
    info, answer, out = (_size * _INDEXED)(), _size(), ctypes.create_string_buffer(128)
    lent = (out, len(out)) if form == "text" else ()
    number = _read_indexed[form](stream, len(stream), at, *lent, info, ctypes.byref(answer))
    if number:
        raise Refused(number, answer.value)
    selector, letter, units, start, length, index, ondex = info[:_INDEXED]
    raw = out.raw[:length] if form == "text" else stream[at + start : at + start + length]
    return Indexed(_spelt_indexed(selector, letter), units * unit, index, ondex, raw)


def write_indexed(form, code, index, ondex, raw):
    """An indexed item: its code, like A, 0B or 2C, its places in the current key list and in the next one, and the signature."""
    if not re.fullmatch("[!-~]{1,2}", code, re.ASCII):
        raise ValueError(f"an indexed code is like A, 0B or 2C, not {code!r}")
    selector, raw, most = ord(code[0]) if len(code) == 2 else 0, _plain(raw), _size(-1).value
    if min(index, ondex) < 0:
        raise ValueError("an index or ondex is 0 or more")
    index, ondex = min(index, most), min(ondex, most)
    return _filled(_write_indexed[form], 160, selector, ord(code[-1]), index, ondex, raw, len(raw))


# ---- groups


def write_group(form, letter, body):
    """Items in a group: its letter, K for -K, and the items one behind the other, which are judged as its contents."""
    if not re.fullmatch("[!-~]", letter, re.ASCII):
        raise ValueError(f"a group's letter is one, like K, not {letter!r}")
    body, answer = _plain(body), _size()
    # The largest header has two units.
    buffer = ctypes.create_string_buffer(body, len(body) + 2 * UNIT[form])
    number = _group[form](ord(letter), len(body), buffer, len(buffer), ctypes.byref(answer))
    if number:
        raise Refused(number, answer.value)
    return buffer.raw[: answer.value]


# ---- all depths


def walk(form, stream):
    """Items at all depths, outer before inner, up to the end. The first refusal is raised in its turn."""
    stream, state = _plain(stream), (_size * _STATE)()
    item, place = (_size * _ITEM)(), _size()
    while True:
        number = _walk[form](stream, len(stream), state, item, ctypes.byref(place))
        if number == _END:
            return
        if number:
            raise Refused(number, place.value)
        offset, size, depth, chars, letter, lead = item[:6]
        yield Step(offset, size, depth, _spelt(chars, letter, lead))
