"""Lines of readmsg, takemsg and writemsg that cannot be read, and odd ones that can."""

from inputs.book import book

SIX = " 00000000" * 6
# Beside STRANGE_LINES, whose choices by chance stay as they were.
UNREADABLE = (
    # no such call
    "readmsgx 821245150540", "readmsgs 821245150540", "readms 821245150540", "read msg 821245150540", "msg 8212",
    "readmsg821245150540", "READMSG 821245150540", "readMsg 821245150540", "Takemsg 821245150540",
    "takemsgs 821245150540", "takems 821245150540", "take msg 821245150540", "take 821245150540",
    "read_msg 821245150540", "read-msg 821245150540", "read 821245150540", "write 821245150540",
    "writemsgx 0 1 1 0 2 0 2 8 40051545" + SIX, "write msg 0 1 1 0 2 0 2 8 40051545" + SIX,
    "writems 0 1 1 0 2 0 2 8 40051545" + SIX, "WRITEMSG 0 1 1 0 2 0 2 8 40051545" + SIX,
    "writemsg0 1 1 0 2 0 2 8 40051545" + SIX, "write 0 1 1 0 2 0 2 8 40051545" + SIX,
    # a field missing
    "readmsg", "readmsg ", "takemsg", "takemsg ", "writemsg", "writemsg ", "writemsg 0", "writemsg 0 1 1 0 2 0 2",
    "writemsg 0 1 1 0 2 0 2 8", "writemsg 0 1 1 0 2 0 2 8 40051545", "writemsg 0 1 1 0 2 0 2 8" + SIX,
    "writemsg 0 1 1 0 2 0 2 40051545" + SIX, "writemsg 0 1 1 0 2 0 8 40051545" + SIX, "writemsg 8 40051545" + SIX,
    # a field left over
    "readmsg 8212 45150540", "readmsg 82 12 45 15 05 40", "readmsg 821245150540 ", "readmsg 821245150540 0",
    "readmsg 821245150540 -", "readmsg - -", "readmsg - ", "takemsg 821245150540 821245150540", "takemsg - 8212",
    "takemsg 6 821245150540", "writemsg 0 1 1 0 2 0 2 8 40051545 00000000" + SIX,
    "writemsg 0 1 1 0 2 0 2 8 40051545" + SIX + " ", "writemsg 0 1 1 0 2 0 2 8 8 40051545" + SIX,
    # a space or another byte that is not expected
    "readmsg  821245150540", " readmsg 821245150540", "readmsg\t821245150540", "readmsg 821245150540\r",
    "readmsg -\r", "readmsg 8212\xb25150540", "takemsg \0\0", "takemsg \xff\xff", "takemsg 8212451505\0\0",
    "writemsg  0 1 1 0 2 0 2 8 40051545" + SIX, "writemsg 0 1 1 0 2 0 2  8 40051545" + SIX,
    "writemsg 0 1 1 0 2 0 2 8 40051545" + SIX + "\r",
    # an odd number of digits, another character, too many bytes
    "readmsg 8", "readmsg 82124515054", "readmsg 8212451505400", "takemsg 0", "takemsg 821245150",
    "readmsg " + "0" * 79, "takemsg " + "0" * 81,
    "readmsg --", "readmsg -8", "readmsg -82", "readmsg 82-", "readmsg -821245150540", "readmsg +82124515054",
    "readmsg 0x821245150540", "readmsg 82124515054G", "readmsg g21245150540", "readmsg 8212451505:0", "takemsg 82.2",
    "takemsg 8/12", "takemsg 82@2", "takemsg 82`2", "takemsg 82_2", "takemsg none", "takemsg \xad",
    "readmsg " + "00" * 41, "takemsg " + "00" * 41, "readmsg 821245150540" + "00" * 35,
    "readmsg " + "00" * 252, "takemsg " + "00" * 253, "readmsg " + "00" * 2000,
    # a number too large, or none; a word that is none
    "writemsg 256 1 1 0 2 0 2 8 40051545" + SIX, "writemsg 0 256 1 0 2 0 2 8 40051545" + SIX,
    "writemsg 0 1 256 0 2 0 2 8 40051545" + SIX, "writemsg 0 1 1 256 2 0 2 8 40051545" + SIX,
    "writemsg 0 1 1 0 256 0 2 8 40051545" + SIX, "writemsg 0 1 1 0 2 256 2 8 40051545" + SIX,
    "writemsg 0 1 1 0 2 0 256 8 40051545" + SIX, "writemsg 0 257 1 0 2 0 258 8 40051545" + SIX,
    "writemsg 0 1 1 0 2 0 2 41 40051545" + SIX, "writemsg 0 1 1 0 2 0 2 42 40051545" + SIX,
    "writemsg 0 1 1 0 2 0 2 255 40051545" + SIX, "writemsg 0 1 1 0 2 0 2 264 40051545" + SIX,
    "writemsg 0 1 1 0 2 0 2 65544 40051545" + SIX, "writemsg 0 1 1 0 2 0 2 4294967304 40051545" + SIX,
    "writemsg 0 1 1 0 2 0 2 18446744073709551624 40051545" + SIX, "writemsg 0 1 1 0 2 0 2 041 40051545" + SIX,
    "writemsg 0 1 1 0 2 0 2 -1 40051545" + SIX, "writemsg 0 1 1 0 2 0 2 - 40051545" + SIX,
    "writemsg 0 1 1 0 2 0 2 A 40051545" + SIX, "writemsg -0 1 1 0 2 0 2 8 40051545" + SIX,
    "writemsg 0 1 1 0 2 0 0x2 8 40051545" + SIX, "writemsg 0 1 F 0 2 0 2 8 40051545" + SIX,
    "writemsg 0 8 0 0 2 0 1 41 40051545" + SIX, "writemsg 1 1 1 0 2 0 2 41 40051545" + SIX,
    "writemsg 0 1 1 0 2 0 2 8 4005154" + SIX, "writemsg 0 1 1 0 2 0 2 8 400515450" + SIX,
    "writemsg 0 1 1 0 2 0 2 8 0x051545" + SIX, "writemsg 0 1 1 0 2 0 2 8 4005154G" + SIX,
    "writemsg 0 1 1 0 2 0 2 8 -" + SIX, "writemsg 0 1 1 0 2 0 2 8 40051545" + SIX[:-1],
    # over 512 bytes
    "writemsg 0 1 1 0 2 0 2 " + "0" * 426 + "8 40051545" + SIX,
)

ODD_BUT_READABLE = (
    "writemsg 0 1 1 0 2 0 2 " + "0" * 425 + "8 40051545" + SIX,
    "writemsg 000 0001 01 00 02 000 00000002 040 40051545" + SIX,
    "writemsg 0 1 1 0 2 0 2 00 40051545" + SIX,
    "readmsg a1612c9101002cd10200f0b0040000c003e03c32dcc8303240c9",
    "takemsg A1612c9101002Cd10200F0b0040000c003E03c32DcC8303240c9",
    "readmsg " + "00" * 40, "takemsg " + "fF" * 40, "readmsg 00", "takemsg -",
)


def strange_lines():
    for line in UNREADABLE:
        assert book.put(line) == "?", line
    for line in ODD_BUT_READABLE:
        assert book.put(line) != "?", line
    assert sorted({len(line) for line in UNREADABLE + ODD_BUT_READABLE if 510 < len(line) < 515}) == [512, 513, 514]
