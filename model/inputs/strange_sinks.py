"""Lines of the four sink calls that cannot be read, and odd ones that can."""

from inputs.book import book

FIVE = " 00000000" * 5
LIST = "2 1201912C C0DC323C" + FIVE
UNREADABLE = (
    # no such call
    "sinkshapes " + LIST, "sinkshap " + LIST, "sink shape " + LIST, "SINKSHAPE " + LIST, "sinkShape " + LIST,
    "sink_shape " + LIST, "sink-shape " + LIST, "shapesink " + LIST, "sink " + LIST, "sinkshape" + LIST,
    "sinkreads " + LIST, "sinkrea " + LIST, "sink read " + LIST, "SinkRead " + LIST, "readsink " + LIST,
    "sinkwrit 1 F 36 100 300", "sinkwrites 1 F 36 100 300", "sink write 1 F 36 100 300", "SINKWRITE 1 F 36 100 300",
    "sinkchec 54 " + LIST, "sinkchecks 54 " + LIST, "sink check 54 " + LIST, "SINKCHECK 54 " + LIST,
    "sinkcheck54 " + LIST, "sinkbuild 72", "sinkanswer " + LIST + " 1004B12C", "sinkdefault 72",
    # a field missing
    "sinkshape", "sinkshape ", "sinkshape 2", "sinkshape 2 1201912C C0DC323C", "sinkshape 1201912C C0DC323C" + FIVE,
    "sinkread", "sinkread ", "sinkread 2 1201912C" + FIVE, "sinkwrite", "sinkwrite ", "sinkwrite 1", "sinkwrite 1 F",
    "sinkwrite 1 F 36 100", "sinkwrite 2 F 36 100 300", "sinkwrite 2 F 36 100 300 P 110 50", "sinkwrite 1 36 100 300",
    "sinkwrite F 36 100 300", "sinkwrite 1 B 100 100", "sinkwrite 1 V 100", "sinkwrite 1 P 110 50",
    "sinkcheck", "sinkcheck ", "sinkcheck 54", "sinkcheck 54 2", "sinkcheck " + LIST, "sinkcheck 54 2" + FIVE,
    # a field left over; a peak current and a power limited are such fields
    "sinkshape " + LIST + " 00000000", "sinkshape " + LIST + " ", "sinkshape 54 " + LIST, "sinkread " + LIST + " 0",
    "sinkread 54 " + LIST, "sinkwrite 1 F 36 0 100 300", "sinkwrite 1 F 36 100 300 0", "sinkwrite 1 F 36 100 300 ",
    "sinkwrite 2 F 36 100 300 P 0 110 50 60", "sinkwrite 2 F 36 100 300 P 1 110 50 60", "sinkwrite 0 F 36 100 300",
    "sinkwrite 8 F 36 100 300", "sinkwrite 255 F 36 100 300", "sinkwrite 1 F 36 100 300 F 0 180 300",
    "sinkwrite 8 F 36 100 300" + " P 110 50 60" * 7, "sinkwrite 0 ", "sinkwrite 1 F 36 100 300 1201912C",
    "sinkcheck 54 54 " + LIST, "sinkcheck 54 " + LIST + " 00000000", "sinkcheck 54 54 300 0 0 0 " + LIST,
    # no sink object
    "sinkwrite 1 A 0 240 0", "sinkwrite 2 F 36 100 300 A 0 300 0", "sinkwrite 3 F 36 100 300 F 0 300 240 A 0 240 0",
    "sinkwrite 1 A 240 0", "sinkwrite 1 f 36 100 300", "sinkwrite 2 F 36 100 300 p 110 50 60",
    "sinkwrite 1 F36 100 300", "sinkwrite 1 X 36 100 300", "sinkwrite 1 FF 36 100 300",
    "sinkwrite 2 F 36 100 300 0 110 50 60",
    # a space or another byte that is not expected
    "sinkshape  " + LIST, " sinkshape " + LIST, "sinkshape\t" + LIST, "sinkshape " + LIST + "\r",
    "sinkread " + LIST + "\0", "sinkread " + LIST + "\xff",
    "sinkwrite 1  F 36 100 300", "sinkwrite 1 F 36  100 300", "sinkwrite 1 F 36 100 300\r", "sinkcheck  54 " + LIST,
    "sinkcheck 54  " + LIST, "sinkcheck\t54 " + LIST, "sinkcheck 54 " + LIST + "\r", "sinkcheck \xb2 " + LIST,
    # a number too large, or none
    "sinkshape 256 1201912C C0DC323C" + FIVE, "sinkshape 258 1201912C C0DC323C" + FIVE,
    "sinkread 256 1201912C C0DC323C" + FIVE, "sinkread -1 1201912C C0DC323C" + FIVE,
    "sinkwrite 256", "sinkwrite 257 F 36 100 300", "sinkwrite -1", "sinkwrite 1 F 256 100 300",
    "sinkwrite 2 F 36 100 300 F 256 180 300", "sinkwrite 1 F 65536 100 300", "sinkwrite 1 F 36 65636 300",
    "sinkwrite 1 F 36 100 65836", "sinkwrite 1 F -1 100 300", "sinkwrite 1 F 36 5.0 300", "sinkwrite 1 F 0x24 100 300",
    "sinkcheck 65536 " + LIST, "sinkcheck 65590 " + LIST, "sinkcheck 4294967350 " + LIST, "sinkcheck -54 " + LIST,
    "sinkcheck +54 " + LIST, "sinkcheck 27.0 " + LIST, "sinkcheck 0x36 " + LIST, "sinkcheck F " + LIST,
    "sinkcheck 54 256 1201912C C0DC323C" + FIVE, "sinkcheck 18446744073709551670 " + LIST,
    # a word that is none
    "sinkshape 2 1201912 C0DC323C" + FIVE, "sinkshape 2 1201912C 0C0DC323C" + FIVE,
    "sinkread 2 0x01912C C0DC323C" + FIVE, "sinkread 2 1201912G C0DC323C" + FIVE,
    "sinkcheck 54 2 1201912C C0DC323C" + FIVE[:-1], "sinkread 1 F 36 100 300",
    # over 512 bytes
    "sinkcheck " + "0" * 436 + "54 " + LIST, "sinkshape " + "0" * 439 + LIST, "sinkread " + "0" * 440 + LIST,
    "sinkwrite 1 F " + "0" * 600 + " 100 300",
)

ODD_BUT_READABLE = (
    "sinkcheck " + "0" * 435 + "54 " + LIST, "sinkshape " + "0" * 438 + LIST, "sinkread " + "0" * 439 + LIST,
    "sinkcheck 00054 " + LIST, "sinkcheck 00 " + LIST, "sinkcheck 0201 " + LIST,
    "sinkshape 002 1201912c c0dc323c" + FIVE, "sinkread 2 1201912c C0dC323c" + FIVE,
    "sinkread 000 1201912C C0DC323C" + FIVE,
    "sinkwrite 02 F 036 0100 00300 P 110 050 60", "sinkwrite 00", "sinkwrite 008", "sinkwrite 1 F 0128 100 300",
    "sinkwrite 1 F 255 65535 65535", "sinkwrite 2 F 127 100 1023 P 65535 65535 65535",
)


def strange_lines():
    for line in UNREADABLE:
        assert book.put(line) == "?", line
    for line in ODD_BUT_READABLE:
        assert book.put(line) != "?", line
    assert sorted({len(line) for line in UNREADABLE + ODD_BUT_READABLE if 510 < len(line) < 515}) == [512, 513]
