"""readmsg, takemsg and writemsg: messages good and bad, their bytes and buffers."""

from itertools import product

import charger
from charger import Fixed, Header, Message, Profile
from inputs.book import book
from inputs.lists import DAMAGES, built, good_words
from inputs.saying import near, said_bytes, said_write_message, words_of
from inputs.seed import SEED_OF_MESSAGES, rng
from inputs.shapes import FIRST, reserved_edges, shape_edges
from inputs.strange_messages import strange_lines

LIST, REQUEST = 1, 2
MOST_BYTES = 40
FIELDS = Header._fields
WIDTH = {field: high - low + 1 for field, (high, low) in zip(FIELDS, charger.HEADER_PLACES)}

# Every beginning of it is a list with its shape.
SEVEN = words_of([Fixed(0, 0, volts, 300) for volts in (100, 120, 180, 240, 300, 360, 400)])


def some_header(count, kind, extended=0):
    return Header(extended, count, rng.randrange(8), rng.randrange(2), rng.randrange(4), rng.randrange(2), kind)


def bytes_of(header, words):
    """The bytes of the header and of the words up to its count, as many as there
    are."""
    return charger.bytes_of_message(Message(header, tuple(words)))


def bytes_of_words(words):
    return b"".join(word.to_bytes(4, "little") for word in words)


def some_good():
    """A header and words that are accepted."""
    if rng.random() < 0.3:
        return some_header(1, REQUEST), [rng.getrandbits(32)]
    words = good_words()
    return some_header(len(words), LIST), words


def some_room(length):
    return rng.choice((length, length + 1, MOST_BYTES, rng.randint(length, MOST_BYTES)))


def too_little_room(length):
    return rng.choice((0, 1, length - 1, max(0, length - 4), rng.randrange(length)))


def say_both(some):
    """The same bytes to readmsg and to takemsg."""
    return [book.say("%s %s" % (call, said_bytes(some))) for call in ("readmsg", "takemsg")]


def say_write(header, room, words):
    return book.say(said_write_message(header, room, words))


def number_in(answer):
    return int(answer.split(" ")[0])


# ------------------------------------------------------------------ the page

OF_THE_PAGE = (
    "readmsg 821245150540",
    "readmsg A1212C9101002cd10200",
    "readmsg 8212451505",
    "readmsg -",
    "readmsg 821",
    "readmsg A1212CD102002C910100",
    "takemsg A1212CD102002C910100",
    "writemsg 0 1 1 0 2 0 2 8 40051545" + " 00000000" * 6,
    "writemsg 0 1 1 0 2 0 2 5 40051545" + " 00000000" * 6,
    "writemsg 0 1 8 0 2 0 2 0 40051545" + " 00000000" * 6,
    "writemsg 0 1 1 0 2 0 2 41 40051545" + " 00000000" * 6,
)


def worked_lines():
    """The examples of the console's page, and the two messages of "Worked by
    hand"."""
    for line in OF_THE_PAGE:
        book.put(line)
    six = built(Profile(72, 72, 300, 0, 1, 0))
    for header, words in ((Header(0, 6, 0, 1, 2, 1, LIST), six), (Header(0, 1, 1, 0, 2, 0, REQUEST), [0x40051545])):
        say_both(bytes_of(header, words))
        say_write(header, MOST_BYTES, words)


# ------------------------------------------------------------- bytes and room


def length_lines():
    """Every number of bytes with every count; of the right one both calls.
    Whatever is there of the words would make a list with its shape."""
    for count, length in product(range(8), range(2, MOST_BYTES + 1)):
        header = some_header(count, REQUEST if count == 1 and length % 2 else LIST)
        junk = [rng.getrandbits(32) for _ in range(3)]
        some = (bytes_of(header, []) + bytes_of_words(SEVEN + junk))[:length]
        if length == charger.message_length(header):
            say_both(some)
        else:
            book.say("%s %s" % (("readmsg", "takemsg")[(length + count) % 2], said_bytes(some)))
    for some in (b"", b"\x01", b"\x02", b"\x81", b"\x12", b"\xFF", b"\x00"):
        say_both(some)


def room_lines():
    """Every room with a Request, and rooms about the length of every count."""
    for room in range(MOST_BYTES + 1):
        say_write(some_header(1, REQUEST), room, [rng.getrandbits(32)])
    for count in range(8):
        length = charger.message_length(Header(0, count, 0, 0, 0, 0, LIST))
        for room in sorted({0, 1, length - 4, *near(length), length + 4, MOST_BYTES} & set(range(MOST_BYTES + 1))):
            say_write(some_header(count, LIST), room, SEVEN[:count])


def past_the_count_lines():
    """What stands past the count does not show, and would be refused in the
    list."""
    for count in range(1, 8):
        for past in (0xFFFFFFFF, 0x00000001):
            words = SEVEN[:count] + [past] * (7 - count)
            say_write(some_header(count, LIST), rng.choice((30, MOST_BYTES)), words)
            if count == 1:
                say_write(some_header(count, REQUEST), MOST_BYTES, words)


# ---------------------------------------------------------------- the header


def field_lines():
    """Every field of the header at its largest, one past it, and further; past
    it once more with the low bits that the message had, were it cut off."""
    for header, words in ((some_header(1, REQUEST), [0x1304B12C]), (some_header(2, LIST), SEVEN[:2])):
        for field in FIELDS:
            over = 1 << WIDTH[field]
            for figure in sorted({0, over - 1, over, over + getattr(header, field), 255}):
                say_write(header._replace(**{field: figure}), 30, words)
        for carried in ((7, 1, 3, 1), (0, 0, 0, 0)):
            full = Header(0, len(words), *carried, header.type)
            say_both(bytes_of(full, words))
            say_write(full, 30, words)


def type_lines():
    """Every type, with one word that both kinds of message may have."""
    for kind in range(32):
        header = some_header(1, kind)
        say_both(bytes_of(header, SEVEN))
        say_write(header, 6, SEVEN[:1])


def count_lines():
    """Every count of both types, with the bytes that it makes."""
    for kind, count in product((REQUEST, REQUEST, REQUEST, LIST), range(8)):
        header = some_header(count, kind)
        say_both(bytes_of(header, SEVEN))
        say_write(header, some_room(charger.message_length(header)), SEVEN[:count])


def extended_lines():
    """Extended, and good otherwise."""
    for kind, count in ((REQUEST, 1), *[(LIST, count) for count in range(1, 8)]):
        header = some_header(count, kind, extended=1)
        say_both(bytes_of(header, SEVEN))
        say_write(header, MOST_BYTES, SEVEN[:count])


def header_bit_lines():
    """Every bit of the header flipped in a good message, its bytes as they were."""
    for header, words in ((some_header(1, REQUEST), [rng.getrandbits(32)]), (some_header(3, LIST), SEVEN[:3])):
        for bit in range(16):
            some = bytearray(bytes_of(header, words))
            some[bit // 8] ^= 1 << bit % 8
            say_both(some)


def random_header_lines():
    """Header bits at random, mostly with the bytes that their count makes."""
    for _ in range(15):
        number = rng.getrandbits(16) & (0xFFFF if rng.random() < 0.3 else 0x7FE3)
        header = charger.header_of(number)
        some = bytes_of(header, SEVEN)
        say_both(some if rng.random() < 0.85 else some[: rng.randrange(len(some) + 1)])
        say_write(header, rng.randint(0, MOST_BYTES), SEVEN[: header.count])
    for _ in range(20):
        header = Header(*[rng.choice((rng.randrange(1 << WIDTH[field]), rng.randrange(256))) for field in FIELDS])
        say_write(header, rng.randint(0, MOST_BYTES), [rng.getrandbits(32) for _ in range(7)])


# ------------------------------------------------------------ lists inside


def lists_by_number():
    """Lists that the shape check refuses, by its number."""
    found = {10: [[]]}
    for words in [words_of(objects) for objects in shape_edges()] + list(reserved_edges()):
        number = charger.shape(charger.list_of_words(words)).number
        if number:
            found.setdefault(number, []).append(words)
    assert sorted(found) == list(range(10, 18)), sorted(found)
    return found


def shape_number_lines():
    """Every number of the shape check in a message that is good otherwise;
    taking apart shows the same words."""
    for number, lists in sorted(lists_by_number().items()):
        for _ in range(4):
            words = rng.choice(lists)
            header = some_header(len(words), LIST)
            some = bytes_of(header, words)
            read, taken = say_both(some)
            assert (number_in(read), number_in(taken)) == (number, 0), words
            assert number_in(say_write(header, some_room(len(some)), words)) == number, words
    # the word of a Request is not judged
    for word in (0, 0xFFFFFFFF, 0xD0000000, 0x00000001, 0x80000000):
        header = some_header(1, REQUEST)
        say_both(bytes_of(header, [word]))
        say_write(header, some_room(6), [word])


# ------------------------------------------------------------ faults together

ORDER_OF_READING = (40, 42, 41, 53)
ORDER_OF_WRITING = (51, 42, 41, 53, 52)

# What no message can have twice: another type, a Request of another count, a
# list without its shape; 0 for none of them.
KINDS_OF_FAULT = (0, 41, 53, 10)


def first_of(order, faults, of_the_list):
    return ([number for number in order if number in faults] + [of_the_list])[0]


def faulty_message(faults, lists):
    """A header and words with these faults; and the number that the list gets
    where nothing else is refused."""
    header, words = some_good()
    of_the_list = 0
    if 41 in faults:
        words = rng.choice((SEVEN[: rng.randrange(8)], *lists[rng.randint(10, 17)]))
        header = some_header(len(words), rng.choice((0, 3, 4, 15, 16, 17, 18, 30, 31)))
    if 53 in faults:
        words = rng.choice((SEVEN, [rng.getrandbits(32) for _ in range(7)]))[: rng.choice((0, 2, 3, 4, 5, 6, 7))]
        header = some_header(len(words), REQUEST)
    if 10 in faults:
        of_the_list = rng.randint(10, 17)
        words = rng.choice(lists[of_the_list])
        header = some_header(len(words), LIST)
    if 42 in faults:
        header = header._replace(extended=1)
    return header, words, of_the_list


def other_length(some):
    """Bytes that are too few or too many; the header stays."""
    fewer = [some[:-1], some[:2], some[: len(some) - 4]] if len(some) > 4 else []
    return rng.choice(fewer + [some + b"\x00", some + bytes(4), (some + bytes(40))[:MOST_BYTES]])


def widened(header):
    """A field too wide. What its bits would hold, were it cut off, is what was
    there."""
    field = rng.choice(FIELDS)
    over = 1 << WIDTH[field]
    figure = getattr(header, field) + over * rng.choice((1, 1, 255 // over))
    return header._replace(**{field: min(figure, figure % over + over * (255 // over))})


def together_lines():
    """Every set of faults that can go together, so that the order shows."""
    lists = lists_by_number()
    for _, kind, extended, short in product(range(3), KINDS_OF_FAULT, (0, 42), (0, 40)):
        faults = {kind, extended, short} - {0}
        header, words, of_the_list = faulty_message(faults, lists)
        some = bytes_of(header, words)
        read, taken = say_both(other_length(some) if short else some)
        assert number_in(read) == first_of(ORDER_OF_READING, faults, of_the_list), faults
        assert number_in(taken) == first_of(ORDER_OF_READING, faults, 0), faults
    for _, kind, extended, short, wide in product(range(3), KINDS_OF_FAULT, (0, 42), (0, 52), (0, 51)):
        faults = {kind, extended, short, wide} - {0}
        header, words, of_the_list = faulty_message(faults, lists)
        length = charger.message_length(header)
        room = too_little_room(length) if short else some_room(length)
        answer = say_write(widened(header) if wide else header, room, words)
        assert number_in(answer) == first_of(ORDER_OF_WRITING, faults, of_the_list), faults


# ---------------------------------------------------------------- good, damaged


def round_trip_lines():
    """A message written, and what was written read and taken apart."""
    counts = set()
    for turn in range(16):
        header, words = some_good()
        if turn < 7:
            words = SEVEN[: turn + 1]
            header = some_header(turn + 1, LIST)
        length = charger.message_length(header)
        answer = say_write(header, some_room(length), words)
        written = bytes.fromhex(answer.split(" ")[3])[:length]
        read, taken = say_both(written)
        assert read == taken and number_in(answer) == number_in(read) == 0, answer
        counts.add((header.type, header.count))
    assert counts == {(REQUEST, 1)} | {(LIST, count) for count in range(1, 8)}, counts


def damaged_lines():
    """A bit of a good message flipped, anywhere; a list damaged and its bytes
    made anew; and any bytes at all."""
    for _ in range(20):
        some = bytearray(bytes_of(*some_good()))
        bit = rng.randrange(8 * len(some))
        some[bit // 8] ^= 1 << bit % 8
        say_both(some)
    for _ in range(12):
        words = list(good_words())
        rng.choice(DAMAGES)(words)
        header = some_header(len(words), LIST)
        say_both(bytes_of(header, words))
        say_write(header, some_room(charger.message_length(header)), words)
    for _ in range(6):
        say_both(bytes(rng.randrange(256) for _ in range(rng.randint(0, MOST_BYTES))))


def message_lines():
    rng.seed(SEED_OF_MESSAGES)
    worked_lines()
    strange_lines()
    length_lines()
    room_lines()
    past_the_count_lines()
    field_lines()
    type_lines()
    count_lines()
    extended_lines()
    header_bit_lines()
    random_header_lines()
    shape_number_lines()
    together_lines()
    round_trip_lines()
    damaged_lines()
