"""The console of docs/CONSOLE.md over the model: one call a line, one line each.

What the page leaves open is decided in NOTES.md, under "The console".
"""

import sys

import charger
from charger import (
    Avs, Battery, Fixed, ForTheList, Header, Message, Objects, Pps, Profile, Row, SinkFixed, SinkPps, Variable, Words,
)

# "more than 512 bytes": the newline is not part of the line.
LONGEST_LINE = 512
MOST_ROWS = 9
# of BYTES and of ROOM
MOST_BYTES = 40
UNTOUCHED = b"\xAA"
NO_BYTE = "-"
UNREADABLE = "?"

DECIMAL_DIGITS = frozenset("0123456789")
HEX_DIGITS = frozenset("0123456789abcdefABCDEF")

LARGEST_8_BIT = 0xFF
LARGEST_16_BIT = 0xFFFF

# An object as a line gives it: its letter, its kind, the largest number each
# field may be before the line is unreadable. Figures of measure are 16-bit
# numbers; flags, peak and limited are 8-bit numbers.
OBJECT_FORMS = {
    "F": (Fixed, (LARGEST_8_BIT, LARGEST_8_BIT, LARGEST_16_BIT, LARGEST_16_BIT)),
    "B": (Battery, (LARGEST_16_BIT, LARGEST_16_BIT, LARGEST_16_BIT)),
    "V": (Variable, (LARGEST_16_BIT, LARGEST_16_BIT, LARGEST_16_BIT)),
    "P": (Pps, (LARGEST_8_BIT, LARGEST_16_BIT, LARGEST_16_BIT, LARGEST_16_BIT)),
    "A": (Avs, (LARGEST_8_BIT, LARGEST_16_BIT, LARGEST_16_BIT)),
}
# A sink object has no peak and no limited, and there is no `A`.
SINK_FORMS = {
    "F": (SinkFixed, (LARGEST_8_BIT, LARGEST_16_BIT, LARGEST_16_BIT)),
    "B": OBJECT_FORMS["B"],
    "V": OBJECT_FORMS["V"],
    "P": (SinkPps, (LARGEST_16_BIT, LARGEST_16_BIT, LARGEST_16_BIT)),
}
LETTERS = {kind: letter for forms in (OBJECT_FORMS, SINK_FORMS) for letter, (kind, _) in forms.items()}


class Unreadable(Exception):
    """A line the console cannot read."""


class State:
    """The console's own port rows. Before the first `rows` line there is none."""

    def __init__(self):
        self.rows = []


class Fields:
    """The fields of a line, taken from left to right."""

    def __init__(self, fields):
        self.left = list(fields)

    def take(self):
        if not self.left:
            raise Unreadable
        return self.left.pop(0)

    def end(self):
        if self.left:
            raise Unreadable

    def number(self, largest):
        field = self.take()
        if not field or not DECIMAL_DIGITS.issuperset(field) or int(field) > largest:
            raise Unreadable
        return int(field)

    def byte(self):
        return self.number(LARGEST_8_BIT)

    def short(self):
        return self.number(LARGEST_16_BIT)

    def word(self):
        field = self.take()
        if len(field) != 8 or not HEX_DIGITS.issuperset(field):
            raise Unreadable
        return int(field, 16)

    def seven_words(self):
        return tuple(self.word() for _ in range(charger.PLACES_IN_A_LIST))

    def words(self):
        """A list: its count and all seven words, also where the count is less."""
        return Words(self.byte(), self.seven_words())

    def some_bytes(self):
        """Two hex digits for each byte, at most 40 bytes; `-` for no byte."""
        field = self.take()
        if field == NO_BYTE:
            return b""
        digits = len(field)
        if not digits or digits % 2 or digits > 2 * MOST_BYTES or not HEX_DIGITS.issuperset(field):
            raise Unreadable
        return bytes(int(field[at : at + 2], 16) for at in range(0, digits, 2))

    def header(self):
        """EXT COUNT ID PROLE REV DROLE TYPE"""
        return Header(*[self.byte() for _ in Header._fields])

    def room(self):
        return self.number(MOST_BYTES)

    def profile(self):
        """M P C R W F"""
        return Profile(self.short(), self.short(), self.short(), self.byte(), self.byte(), self.byte())

    def one_object(self, forms):
        kind, largest = forms.get(self.take(), (None, None))
        if kind is None:
            raise Unreadable
        return kind(*[self.number(most) for most in largest])

    def some_objects(self, forms, list_of):
        """As many objects as the count says, and none where it is outside 1 to 7."""
        count = self.byte()
        given = [self.one_object(forms) for _ in range(count)] if 1 <= count <= 7 else []
        return Objects(count, list_of(given).places)

    def objects(self):
        return self.some_objects(OBJECT_FORMS, charger.list_of_objects)

    def sink_objects(self):
        return self.some_objects(SINK_FORMS, charger.list_of_sink_objects)

    def row(self):
        """M W C P HELD"""
        return Row(self.short(), self.byte(), self.short(), self.short(), self.short())


# ------------------------------------------------------------------ answers


def said(answer, *more):
    return " ".join(str(part) for part in (answer.number, answer.place) + more)


def said_nothing_more(answer):
    return said(answer)


def said_words(answer):
    return said(answer, answer.value.count, *["%08X" % word for word in charger.held_in(answer.value)])


def said_objects(answer):
    told = []
    for obj in charger.held_in(answer.value):
        told += [LETTERS[type(obj)], *obj]
    return said(answer, answer.value.count, *told)


def said_summary(answer):
    """Its count, and then the four limits of each of the seven places."""
    return said(answer, answer.value.count, *[limit for row in answer.value.rows for limit in row])


def said_profile(answer):
    return said(answer, *answer.value)


def said_power(answer):
    return said(answer, answer.value)


def said_message(answer):
    return said(answer, *answer.value.header, *["%08X" % word for word in charger.words_in(answer.value)])


def said_written(answer):
    length, buffer = answer.value
    return said(answer, length, "".join("%02X" % byte for byte in buffer) or NO_BYTE)


# -------------------------------------------------------------------- lines


def write_message_into(header, room, words):
    """Before the call the buffer is filled with AA; all of it is shown after
    the call."""
    buffer = bytearray(UNTOUCHED * room)
    answer = charger.write_message(Message(header, words), buffer)
    return answer._replace(value=(answer.value, buffer))


def quick(words, request):
    """What `answer` does, by way of the summary: "it makes the summary of the list,
    decodes the request for the object at its position, and answers from these two. A
    request to a battery object goes to the list."
    """
    summary = charger.make_summary(words)
    if summary.number:
        return summary
    asked = charger.decode_request(words, request)
    if asked.number:
        return asked
    if isinstance(asked.value, ForTheList):
        return charger.answer(words, request)
    return charger.answer_from_summary(summary.value, asked.value)


# word: what its fields are, the call, what is said of its answer
STATELESS_CALLS = {
    "default": ((Fields.short,), charger.default_profile, said_profile),
    "build": ((Fields.profile,), charger.build, said_words),
    "shape": ((Fields.words,), charger.shape, said_nothing_more),
    "check": ((Fields.profile, Fields.words), charger.check, said_nothing_more),
    "read": ((Fields.words,), charger.read, said_objects),
    "write": ((Fields.objects,), charger.write, said_words),
    "answer": ((Fields.words, Fields.word), charger.answer, said_nothing_more),
    "summary": ((Fields.words,), charger.make_summary, said_summary),
    "quick": ((Fields.words, Fields.word), quick, said_nothing_more),
    "sinkshape": ((Fields.words,), charger.sink_shape, said_nothing_more),
    "sinkread": ((Fields.words,), charger.sink_read, said_objects),
    "sinkwrite": ((Fields.sink_objects,), charger.sink_write, said_words),
    "sinkcheck": ((Fields.short, Fields.words), charger.sink_check, said_nothing_more),
    "readmsg": ((Fields.some_bytes,), charger.read_message, said_message),
    "takemsg": ((Fields.some_bytes,), charger.take_message_apart, said_message),
    "writemsg": ((Fields.header, Fields.room, Fields.seven_words), write_message_into, said_written),
}

# the same, for calls over the rows; the first field is the capacity
SHARING_CALLS = {
    "setup": ((), charger.set_up, said_nothing_more),
    "attach": ((Fields.byte, Fields.short), charger.attach, said_words),
    "advertise": ((Fields.byte,), charger.advertise, said_words),
    "request": ((Fields.byte, Fields.word), charger.request, said_nothing_more),
    "detach": ((Fields.byte,), charger.detach, said_nothing_more),
    "remaining": ((), charger.remaining, said_power),
}


def taken(fields, takers):
    inputs = [take(fields) for take in takers]
    fields.end()
    return inputs


def set_rows(state, fields):
    """Five numbers a row, for none to nine rows."""
    rows = []
    while fields.left:
        rows.append(fields.row())
    if len(rows) > MOST_ROWS:
        raise Unreadable
    state.rows = rows
    return "rows %d" % len(rows)


def table(state):
    told = ["rows", len(state.rows)]
    for row in state.rows:
        told += row
    return " ".join(str(part) for part in told)


def answer_readable(state, line):
    if len(line) > LONGEST_LINE:
        raise Unreadable
    fields = Fields(line.split(" "))
    call = fields.take()
    if call in STATELESS_CALLS:
        takers, judge, say = STATELESS_CALLS[call]
        return say(judge(*taken(fields, takers)))
    if call in SHARING_CALLS:
        takers, judge, say = SHARING_CALLS[call]
        capacity, *rest = taken(fields, (Fields.short,) + takers)
        return say(judge(capacity, state.rows, *rest))
    if call == "rows":
        return set_rows(state, fields)
    if call == "table":
        fields.end()
        return table(state)
    raise Unreadable


def answer_line(state, line):
    """The console's line for a line, given without its newline, one character
    a byte."""
    try:
        return answer_readable(state, line)
    except Unreadable:
        return UNREADABLE


def lines_of(source):
    """The lines of a source of bytes, in constant memory: a line over the
    limit is kept only up to one byte past it, which is enough to refuse it.
    The end of the input ends a line too, unless that line is empty."""
    line = bytearray()
    while True:
        chunk = source.read(65536)
        if not chunk:
            break
        pieces = chunk.split(b"\n")
        for piece in pieces[:-1]:
            line += piece[: LONGEST_LINE + 1 - len(line)]
            yield line.decode("latin-1")
            line.clear()
        line += pieces[-1][: LONGEST_LINE + 1 - len(line)]
    if line:
        yield line.decode("latin-1")


def serve(source, sink):
    state = State()
    for line in lines_of(source):
        sink.write(answer_line(state, line).encode("ascii") + b"\n")


def main():
    serve(sys.stdin.buffer, sys.stdout.buffer)


if __name__ == "__main__":
    main()
