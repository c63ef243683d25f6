"""Messages: reading them, taking them apart and writing them.

A message is a header and up to seven words. Its bytes are the two of the header
and then the four of each word, "of every number the low byte first".
"""

from collections import namedtuple

from charger.lists import PLACES_IN_A_LIST, Words, list_of_words
from charger.object_words import bits
from charger.refusals import public_call, refuse_if
from charger.shapes import shaped

# "The fields of the header", in the order of their table.
Header = namedtuple("Header", "extended count id power_role revision data_role type")

# "In hand a message is its header, as these seven numbers, and seven words. There
# is one count, the header's."
Message = namedtuple("Message", "header places")

# The column "bits" of that table (high bit, low bit).
HEADER_PLACES = ((15, 15), (14, 12), (11, 9), (8, 8), (7, 6), (5, 5), (4, 0))

BYTES_IN_A_HEADER = 2
BYTES_IN_A_WORD = 4

# "Two types are handled"
SOURCE_CAPABILITIES = 1
REQUEST = 2

# "On a refusal [..] a message is all zeros"
NO_MESSAGE = Message(Header(0, 0, 0, 0, 0, 0, 0), (0,) * PLACES_IN_A_LIST)


def number_of_bytes(some):
    """The number that some bytes make, the low byte first."""
    return sum(byte << 8 * at for at, byte in enumerate(some))


def bytes_of_number(number, how_many):
    return bytes(number >> 8 * at & 0xFF for at in range(how_many))


def header_of(number):
    """The seven numbers of a header of 16 bits, each by its bit places."""
    return Header(*[bits(number, high, low) for high, low in HEADER_PLACES])


def number_of_header(header):
    """The 16 bits of a header whose fields all fit."""
    return sum(field << low for field, (_, low) in zip(header, HEADER_PLACES))


def has_header_field_too_wide(header):
    """51: a field of the header is wider than its bits."""
    return any(field >> (high - low + 1) for field, (high, low) in zip(header, HEADER_PLACES))


def message_length(header):
    """Its length is 2 and 4 times its count, in bytes."""
    return BYTES_IN_A_HEADER + BYTES_IN_A_WORD * header.count


def words_in(message):
    """The words past the count are not looked at."""
    return message.places[: message.header.count]


def bytes_of_message(message):
    """Of a message whose header fits: the header and then its words."""
    words = [bytes_of_number(word, BYTES_IN_A_WORD) for word in words_in(message)]
    return bytes_of_number(number_of_header(message.header), BYTES_IN_A_HEADER) + b"".join(words)


def refuse_unhandled(header):
    """42: extended set. 41: a type that is neither 1 nor 2. 53: a Request whose
    count is not 1."""
    refuse_if(header.extended == 1, 42)
    refuse_if(header.type not in (SOURCE_CAPABILITIES, REQUEST), 41)
    refuse_if(header.type == REQUEST and header.count != 1, 53)


def refuse_bad_list(message):
    """As shape, for a Source_Capabilities. The word of a Request is not
    judged."""
    if message.header.type == SOURCE_CAPABILITIES:
        shaped(Words(message.header.count, message.places))


def taken_apart(lent):
    """Order: 40, 42, 41, 53. 40: fewer than two bytes, or a number of bytes that
    is not the length that the header's count makes."""
    refuse_if(len(lent) < BYTES_IN_A_HEADER, 40)
    header = header_of(number_of_bytes(lent[:BYTES_IN_A_HEADER]))
    refuse_if(len(lent) != message_length(header), 40)
    refuse_unhandled(header)
    begins = range(BYTES_IN_A_HEADER, len(lent), BYTES_IN_A_WORD)
    words = [number_of_bytes(lent[at : at + BYTES_IN_A_WORD]) for at in begins]
    return Message(header, list_of_words(words).places)


@public_call(NO_MESSAGE)
def read_message(lent):
    """40, 42, 41, 53; then for type 1 as shape."""
    message = taken_apart(lent)
    refuse_bad_list(message)
    return message


@public_call(NO_MESSAGE)
def take_message_apart(lent):
    """The same without the last: it takes a list whose shape fails as it
    stands."""
    return taken_apart(lent)


@public_call(0)
def write_message(message, buffer):
    """51, 42, 41, 53, 52; then for type 1 as shape. The bytes go into the buffer
    from the first on, and the answer is the length. The bytes past that are as
    they were; on a refusal every byte is, and the length is 0."""
    refuse_if(has_header_field_too_wide(message.header), 51)
    refuse_unhandled(message.header)
    length = message_length(message.header)
    refuse_if(len(buffer) < length, 52)
    refuse_bad_list(message)
    buffer[:length] = bytes_of_message(message)
    return length
