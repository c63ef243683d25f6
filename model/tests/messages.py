"""Properties of messages: their bytes by hand, every header, round trips, the
first refusal and what is left in the buffer."""

import random
from collections import Counter

import charger
from charger import Header, Message
from tests.expecting import expect
from tests.handling import verdict
from tests.properties import some_words

NOTHING = (0, 0, 0, 0, 0, 0, 0)

# Each row of the header's table, bit by bit and at its largest, as a number of
# 16 bits and as the seven numbers.
HEADERS_BY_HAND = (
    (0x0000, (0, 0, 0, 0, 0, 0, 0)),
    (0x8000, (1, 0, 0, 0, 0, 0, 0)),
    (0x4000, (0, 4, 0, 0, 0, 0, 0)), (0x2000, (0, 2, 0, 0, 0, 0, 0)), (0x1000, (0, 1, 0, 0, 0, 0, 0)),
    (0x7000, (0, 7, 0, 0, 0, 0, 0)),
    (0x0800, (0, 0, 4, 0, 0, 0, 0)), (0x0400, (0, 0, 2, 0, 0, 0, 0)), (0x0200, (0, 0, 1, 0, 0, 0, 0)),
    (0x0E00, (0, 0, 7, 0, 0, 0, 0)),
    (0x0100, (0, 0, 0, 1, 0, 0, 0)),
    (0x0080, (0, 0, 0, 0, 2, 0, 0)), (0x0040, (0, 0, 0, 0, 1, 0, 0)), (0x00C0, (0, 0, 0, 0, 3, 0, 0)),
    (0x0020, (0, 0, 0, 0, 0, 1, 0)),
    (0x0010, (0, 0, 0, 0, 0, 0, 16)), (0x0008, (0, 0, 0, 0, 0, 0, 8)), (0x0004, (0, 0, 0, 0, 0, 0, 4)),
    (0x0002, (0, 0, 0, 0, 0, 0, 2)), (0x0001, (0, 0, 0, 0, 0, 0, 1)), (0x001F, (0, 0, 0, 0, 0, 0, 31)),
    (0xFFFF, (1, 7, 7, 1, 3, 1, 31)),
    (0x61A1, (0, 6, 0, 1, 2, 1, 1)),
    (0x1282, (0, 1, 1, 0, 2, 0, 2)),
)

# What the table lets each field be: from 0 to one less than this.
LIMITS = (2, 8, 8, 2, 4, 2, 32)

# 5, 6, 9, 12, 15, 18 and 20 V at 3 A: every beginning is a list with its shape.
SEVEN = (0x0001912C, 0x0001E12C, 0x0002D12C, 0x0003C12C, 0x0004B12C, 0x0005A12C, 0x0006412C)
BYTES_OF_SEVEN = bytes.fromhex("2C910100 2CE10100 2CD10200 2CC10300 2CB10400 2CA10500 2C410600")


def by_division(number):
    """The fields of a header by what their lowest bits count."""
    n = number
    return (n // 32768, n // 4096 % 8, n // 512 % 8, n // 256 % 2, n // 64 % 4, n // 32 % 2, n % 32)


def low_byte_first(number, how_many):
    some = []
    for _ in range(how_many):
        some.append(number % 256)
        number //= 256
    return bytes(some)


def bytes_by_hand(fields, words):
    """Of fields that fit: each times what its lowest bit counts."""
    number = sum(field * unit for field, unit in zip(fields, (32768, 4096, 512, 256, 64, 32, 1)))
    return low_byte_first(number, 2) + b"".join(low_byte_first(word, 4) for word in words)


def unhandled(fields):
    """42, 41, 53, or 0."""
    extended, count, kind = fields[0], fields[1], fields[6]
    return 42 if extended else 41 if kind not in (1, 2) else 53 if kind == 2 and count != 1 else 0


def of_the_list(fields, words):
    """What the shape check gives the words of a Source_Capabilities."""
    if fields[6] != 1:
        return (0, 0)
    return verdict(charger.shape(charger.list_of_words(words)))


def refused(number, place=0):
    return (number, place, (NOTHING, NOTHING))


def in_hand(fields, words):
    return (0, 0, (fields, tuple(words) + (0,) * (7 - len(words))))


def test_headers_by_hand():
    for number, fields in HEADERS_BY_HAND:
        expect("the fields of %04X" % number, charger.header_of(number), fields)
        expect("the header of %r" % (fields,), charger.number_of_header(Header(*fields)), number)
    # the four that are carried show in the bytes, low byte first
    for fields, some in (
        ((0, 1, 7, 0, 0, 0, 2), "021E"), ((0, 1, 4, 0, 0, 0, 2), "0218"), ((0, 1, 1, 0, 0, 0, 2), "0212"),
        ((0, 1, 0, 1, 0, 0, 2), "0211"), ((0, 1, 0, 0, 3, 0, 2), "C210"), ((0, 1, 0, 0, 2, 0, 2), "8210"),
        ((0, 1, 0, 0, 1, 0, 2), "4210"), ((0, 1, 0, 0, 0, 1, 2), "2210"), ((0, 1, 7, 1, 3, 1, 2), "E21F"),
    ):
        lent = bytes.fromhex(some + "78563412")
        for call in (charger.read_message, charger.take_message_apart):
            expect("the bytes %s" % some, call(lent), in_hand(fields, (0x12345678,)))
        buffer = bytearray(6)
        message = Message(Header(*fields), (0x12345678, 1, 2, 3, 4, 5, 6))
        expect("%r written" % (fields,), (charger.write_message(message, buffer), buffer), ((0, 0, 6), lent))


def test_every_header():
    """All numbers of 16 bits: two bytes alone, and with the words that their
    count calls for; written back, and written from their fields."""
    wrong = Counter()
    accepted = 0
    for number in range(65536):
        fields = by_division(number)
        count, two = fields[1], low_byte_first(number, 2)
        want = unhandled(fields)
        alone = charger.take_message_apart(two)
        wrong["two bytes"] += alone != (refused(40) if count else refused(want) if want else in_hand(fields, ()))
        lent = two + BYTES_OF_SEVEN[: 4 * count]
        plain = refused(want) if want else in_hand(fields, SEVEN[:count])
        judged = refused(10) if not want and count == 0 else plain
        wrong["taken apart"] += charger.take_message_apart(lent) != plain
        wrong["read"] += charger.read_message(lent) != judged
        buffer = bytearray(b"\x5A" * 33)
        answer = charger.write_message(Message(Header(*fields), SEVEN), buffer)
        length = 0 if judged[0] else len(lent)
        wrong["written"] += answer != (judged[0], 0, length)
        wrong["the buffer"] += buffer != lent[:length] + b"\x5A" * (33 - length)
        accepted += length > 0
    expect("of all headers, wrong", +wrong, Counter())
    # id, roles and revision are free; seven lists and a Request
    expect("accepted", accepted, 8 * 2 * 4 * 2 * 8)


def test_lengths():
    """Every number of bytes with every count, and far more of them."""
    for count in range(8):
        for kind in (1, 2):
            fields = (0, count, 5, 1, 2, 0, kind)
            whole = bytes_by_hand(fields, ()) + BYTES_OF_SEVEN + b"\xFF" * 1000
            for length in [*range(45), 257, 258, 262, 1000]:
                answer = charger.take_message_apart(whole[:length])
                right = length == 2 + 4 * count
                want = 40 if not right else 53 if kind == 2 and count != 1 else 0
                expect("%d bytes for a count of %d" % (length, count), answer.number, want)
                read = charger.read_message(whole[:length]).number
                expect("the same read", read, 10 if right and kind == 1 and count == 0 else want)


def test_fields_too_wide():
    """51 exactly from the first number that the table does not name, up to all
    that 8 bits hold; with the other fields as they are, and out of bounds too."""
    for at, limit in enumerate(LIMITS):
        for figure in range(256):
            for rest in ((0, 1, 3, 1, 2, 1, 1), (0, 1, 0, 0, 0, 0, 2)):
                fields = rest[:at] + (figure,) + rest[at + 1 :]
                buffer = bytearray(b"\x33" * 30)
                answer = charger.write_message(Message(Header(*fields), SEVEN), buffer)
                want = 51 if figure >= limit else unhandled(fields) or of_the_list(fields, SEVEN[: fields[1]])[0]
                expect("field %d at %d" % (at + 1, figure), answer.number, want)
                expect("written or not", buffer == b"\x33" * 30, want != 0)


def some_fields(rng, count):
    """Mostly fields of a message that is accepted."""
    kind = rng.choice((1, 1, 1, 1, 2)) if rng.random() < 0.9 else rng.choice((0, 3, 17, 18, 31))
    extended = int(rng.random() < 0.08)
    return (extended, count, rng.randrange(8), rng.randrange(2), rng.randrange(4), rng.randrange(2), kind)


def some_words_of_a_message(rng):
    """Good lists, and lists with a bit flipped, with bit 22 set, with a word of no
    kind or of more than 100 W; none; and any words."""
    words = some_words(rng)
    while len(words) < 7 and rng.random() < 0.4:
        words.append(0xC1A4323C)  # PPS from 5 to 21 V: it may stand again and again
    way = rng.random()
    if way < 0.04:
        return [rng.getrandbits(32) for _ in range(rng.randrange(8))]
    if way < 0.07:
        return []
    if way < 0.22:
        at = rng.randrange(len(words))
        flipped, with_bit_22 = words[at] ^ 1 << rng.randrange(32), words[at] | 1 << 22
        words[at] = rng.choice((flipped, flipped, with_bit_22, 0xD0000000, 0xFFFFFFFF, 0x990005FF))
    return words


def some_message(rng):
    """Fields that fit, and as many words."""
    words = some_words_of_a_message(rng)
    fields = some_fields(rng, len(words))
    if fields[6] == 2 and rng.random() < 0.8:
        words, fields = words[:1] or [7], fields[:1] + (1,) + fields[2:]
    return fields, words


def test_messages_read():
    """The first refusal in the order 40, 42, 41, 53, those of the list; taking
    apart without the last; the bytes stay."""
    rng = random.Random(8)
    seen = Counter()
    for _ in range(6000):
        fields, words = some_message(rng)
        lent = bytearray(bytes_by_hand(fields, words))
        if rng.random() < 0.15:
            lent = lent[: rng.randrange(len(lent))] if rng.random() < 0.5 else lent + bytes(rng.randint(1, 9))
        before = bytes(lent)
        wrong_length = len(lent) != 2 + 4 * len(words)
        number = 40 if wrong_length else unhandled(fields)
        whole = in_hand(fields, words)
        list_number, place = of_the_list(fields, words)
        taken, read = charger.take_message_apart(lent), charger.read_message(lent)
        expect("taken apart", taken, refused(number) if number else whole)
        expect("read", read, taken if number or not list_number else refused(list_number, place))
        expect("the bytes stay", bytes(lent), before)
        seen["taken apart", taken.number] += 1
        seen["read", read.number] += 1
    for call, numbers in (("taken apart", (0, 40, 41, 42, 53)), ("read", (0, *range(10, 18), 40, 41, 42, 53))):
        expect("what is given, %s" % call, sorted(number for how, number in seen if how == call), sorted(numbers))
        for number in numbers:
            expect("%s, %d often enough (%d)" % (call, number, seen[call, number]), seen[call, number] >= 20)


def test_messages_written():
    """The first refusal in the order 51, 42, 41, 53, 52, those of the list. On a
    refusal no byte is written, else no byte past the message; what stands past
    the count is not looked at."""
    rng = random.Random(9)
    seen = Counter()
    for _ in range(6000):
        fields, words = some_message(rng)
        past = tuple(rng.choice((0, 0xFFFFFFFF, rng.getrandbits(32))) for _ in range(7 - len(words)))
        length = 2 + 4 * len(words)
        room = rng.choice((rng.randrange(length), length, length + 1, length + rng.randrange(300)))
        wide = rng.random() < 0.12
        given = list(fields)
        if wide:
            at = rng.randrange(7)
            given[at] = rng.randrange(LIMITS[at], 256)
        number, place = (51, 0) if wide else (unhandled(fields), 0)
        if not number:
            number, place = (52, 0) if room < length else of_the_list(fields, words)
        before = bytes(rng.randrange(256) for _ in range(room))
        buffer = bytearray(before)
        answer = charger.write_message(Message(Header(*given), tuple(words) + past), buffer)
        expect("written", answer, (number, place, 0 if number else length))
        made = b"" if number else bytes_by_hand(fields, words)
        expect("the buffer", bytes(buffer), made + before[len(made) :])
        seen[number] += 1
    expect("what is given", sorted(seen), [0, *range(10, 18), 41, 42, 51, 52, 53])
    for number in seen:
        expect("%d, often enough (%d)" % (number, seen[number]), seen[number] >= 20)


def test_message_round_trips():
    """Reading what was written gives the same header and words up to the count;
    writing what was read or taken apart gives the same bytes."""
    rng = random.Random(10)
    seen = Counter()
    for _ in range(4000):
        fields, words = some_message(rng)
        past = tuple(rng.getrandbits(32) for _ in range(7 - len(words)))
        buffer = bytearray(rng.randrange(256) for _ in range(30 + rng.randrange(11)))
        message = Message(Header(*fields), tuple(words) + past)
        answer = charger.write_message(message, buffer)
        if answer.number:
            continue
        written = bytes(buffer[: answer.value])
        for call in (charger.read_message, charger.take_message_apart):
            back = call(written)
            expect("what was written, read", back, in_hand(fields, words))
            again = bytearray(rng.randrange(256) for _ in range(answer.value))
            expect("what was read, written", (charger.write_message(back.value, again), again), (answer, written))
        seen[fields[6], fields[1]] += 1
    for kind, count in [(2, 1)] + [(1, count) for count in range(1, 8)]:
        often = seen[kind, count]
        expect("type %d, count %d, often enough (%d)" % (kind, count, often), often >= 20)


def test_taken_apart_and_not_writable():
    """A list whose shape fails is taken apart; writing it refuses as reading
    does."""
    for words in ((), (0xFFFFFFFF,), (0x0002D12C, 0x0001912C), SEVEN[:6] + (0xD0000000,)):
        fields = (0, len(words), 1, 1, 2, 1, 1)
        lent = bytes_by_hand(fields, words)
        taken, read = charger.take_message_apart(lent), charger.read_message(lent)
        expect("taken apart as it stands", taken, in_hand(fields, words))
        buffer = bytearray(40)
        written = charger.write_message(taken.value, buffer)
        expect("refused alike", verdict(written), verdict(read))
        expect("and is refused", verdict(read), of_the_list(fields, words))
        expect("nothing written", (written.value, buffer), (0, bytes(40)))
