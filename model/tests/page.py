"""The console's page: its example and its edges."""

import io

import console
from tests.expecting import expect

EXAMPLE = """\
build 72 72 300 0 1 0
0 0 6 0001912C 0002D12C 0004B0F0 E003C000 C8DC323C C9403230
rows 130 0 0 0 0 130 0 0 0 0
rows 2
setup 200
0 0
attach 200 1 500
0 0 5 0001912C 0002D12C 0004B12C 00064145 E004B145
request 200 1 40051545
0 0
remaining 200
0 0 55
shape 9 00000000 00000000 00000000 00000000 00000000 00000000 00000000
10 0
hello
?"""


ZEROS = " 00000000" * 6
EXAMPLES_OF_MESSAGES = (
    ("readmsg 821245150540", "0 0 0 1 1 0 2 0 2 40051545"),
    ("readmsg A1212C9101002cd10200", "0 0 0 2 0 1 2 1 1 0001912C 0002D12C"),
    ("readmsg 8212451505", "40 0 0 0 0 0 0 0 0"),
    ("readmsg -", "40 0 0 0 0 0 0 0 0"),
    ("readmsg 821", "?"),
    ("readmsg A1212CD102002C910100", "11 1 0 0 0 0 0 0 0"),
    ("takemsg A1212CD102002C910100", "0 0 0 2 0 1 2 1 1 0002D12C 0001912C"),
    ("writemsg 0 1 1 0 2 0 2 8 40051545" + ZEROS, "0 0 6 821245150540AAAA"),
    ("writemsg 0 1 1 0 2 0 2 5 40051545" + ZEROS, "52 0 0 AAAAAAAAAA"),
    ("writemsg 0 1 8 0 2 0 2 0 40051545" + ZEROS, "51 0 0 -"),
    ("writemsg 0 1 1 0 2 0 2 41 40051545" + ZEROS, "?"),
)


EXAMPLES_OF_CABLES = (
    ("default 72", "0 0 72 72 300 0 0 0"),
    ("build 200 200 200 0 1 0", "0 0 6 000190C8 0002D0C8 0004B0C8 000640C8 E00320C8 C9A43228"),
    ("build 200 200 99 0 1 0", "3 0 0"),
    ("build 72 72 65536 0 1 0", "?"),
)


LIST_L = "5 0001912C 0002D12C 0004B12C 00064145 E004B145 00000000 00000000"
WITH_BATTERY = "3 0A01912C 5A4190C8 99019096" + ZEROS[18:]
EXAMPLES_OF_SUMMARIES = (
    ("summary " + LIST_L,
     "0 0 5 5000 5000 3000 3000 9000 9000 3000 3000 15000 15000 3000 3000 20000 20000 3250 3250 9000 20000 3000 3250"
     " 0 0 0 0 0 0 0 0"),
    ("summary " + WITH_BATTERY, "0 0 3 5000 5000 3000 3000 5000 21000 0 0 5000 20000 1500 1500" + " 0" * 16),
    ("summary 1 0002D12C" + ZEROS, "11 1 0" + " 0" * 28),
    ("quick " + LIST_L + " 5004B041", "0 0"),
    ("quick " + LIST_L + " 5004B042", "24 0"),
    ("quick " + WITH_BATTERY + " 200320C8", "0 0"),
    ("quick " + WITH_BATTERY + " 40000000", "20 0"),
)


EXAMPLES_OF_SINKS = (
    ("sinkshape 2 1201912C C0DC323C" + ZEROS[9:], "0 0"),
    ("sinkshape 2 1201912C C8DC323C" + ZEROS[9:], "13 2"),
    ("sinkread 2 1201912C C0DC323C" + ZEROS[9:], "0 0 2 F 36 100 300 P 110 50 60"),
    ("sinkread 2 1201912C E003C000" + ZEROS[9:], "12 2 0"),
    ("sinkwrite 2 F 36 100 300 P 110 50 60", "0 0 2 1201912C C0DC323C"),
    ("sinkwrite 1 F 128 100 300", "7 1 0"),
    ("sinkwrite 1 A 0 240 0", "?"),
    ("sinkcheck 54 2 1201912C C0DC323C" + ZEROS[9:], "0 0"),
    ("sinkcheck 53 2 1201912C C0DC323C" + ZEROS[9:], "43 0"),
    ("sinkcheck 0 2 1201912C C0DC323C" + ZEROS[9:], "1 0"),
)


def served(given):
    sink = io.BytesIO()
    console.serve(io.BytesIO(given), sink)
    return sink.getvalue()


def test_console():
    lines = EXAMPLE.split("\n")
    expect("the example", served("\n".join(lines[::2]).encode()).decode(), "\n".join(lines[1::2]) + "\n")
    expect("no input", served(b""), b"")
    expect("an empty line", served(b"\n"), b"?\n")
    expect("end in a line", served(b"table"), b"rows 0\n")
    expect("end after a line", served(b"table\n"), b"rows 0\n")
    expect("a refused default", served(b"default 0"), b"1 0 0 0 0 0 0 0\n")
    expect("a refused build", served(b"build 0 0 0 0 0 0"), b"1 0 0\n")
    expect("513 bytes", served(b"default " + b"0" * 503 + b"72\ntable"), b"?\nrows 0\n")
    expect("512 bytes", served(b"default " + b"0" * 502 + b"72\ntable"), b"0 0 72 72 300 0 0 0\nrows 0\n")
    expect("100000 bytes", served(b"x" * 100_000 + b"\ntable\n"), b"?\nrows 0\n")
    expect("long at the end", served(b"x" * 65_536 + b"\n" + b"y" * 200_000), b"?\n?\n")
    expect("nine rows", served(b"rows" + b" 100 0 0 0 15" * 9 + b"\nremaining 135"), b"rows 9\n30 0 0\n")
    expect("ten rows", served(b"rows" + b" 100 0 0 0 15" * 10 + b"\ntable"), b"?\nrows 0\n")
    expect("read", served(b"read 1 3FB1912C" + b" FFFFFFFF" * 6), b"0 0 1 F 127 3 100 300\n")
    expect("write", served(b"write 1 F 127 3 100 300"), b"0 0 1 3FB1912C\n")
    expect("write too wide", served(b"write 1 F 128 3 100 300"), b"7 1 0\n")
    expect("write none", served(b"write 9"), b"10 0 0\n")


def test_lines_of_cables():
    """C and CABLE are numbers of 16 bits, in a profile, in attach and in rows."""
    for line, answer in EXAMPLES_OF_CABLES:
        expect(line, served(line.encode()).decode(), answer + "\n")
    check = "check 30 30 %s 0 0 0 1 0001912C" + ZEROS
    for cable, refused in (("256", False), ("0300", False), ("501", True), ("65535", True)):
        expect("build", served(b"build 30 30 %s 0 0 0" % cable.encode())[:2], b"3 " if refused else b"0 ")
        expect("check", served((check % cable).encode())[:2] == b"3 ", refused)
        rows = "rows 100 0 0 0 15\nattach 200 1 %s\ntable" % cable
        table = "rows 1 100 0 0 0 15" if refused else "rows 1 100 0 %d 100 15" % int(cable)
        expect("attach", served(rows.encode()).decode().split("\n")[2], table)
        rows = "rows 100 0 %s 100 15\ntable\nremaining 200" % cable
        remaining = "37 1 0" if refused else "0 0 185"
        expect("rows", served(rows.encode()).decode(), "rows 1\nrows 1 100 0 %d 100 15\n%s\n" % (int(cable), remaining))
    for line in ("build 30 30 65536 0 0 0", check % "65536", "attach 200 1 65536", "rows 100 0 65536 100 15"):
        expect(line, served(line.encode()), b"?\n")


def test_lines_of_messages():
    for line, answer in EXAMPLES_OF_MESSAGES:
        expect(line, served(line.encode()).decode(), answer + "\n")
    for line, answer in (
        # small, capital or mixed; as many zeros in front as the line has room for
        ("readmsg a1212c9101002Cd10200", "0 0 0 2 0 1 2 1 1 0001912C 0002D12C"),
        ("takemsg aC10", "40 0 0 0 0 0 0 0 0"),
        ("takemsg 0100", "0 0 0 0 0 0 0 0 1"),
        ("readmsg 0100", "10 0 0 0 0 0 0 0 0"),
        ("takemsg " + "00" * 40, "40 0 0 0 0 0 0 0 0"),
        ("writemsg 00 01 001 0 2 0 02 0006 40051545" + ZEROS, "0 0 6 821245150540"),
        ("writemsg 0 1 1 0 2 0 2 0 40051545" + ZEROS, "52 0 0 -"),
        ("writemsg 0 1 1 0 2 0 2 40 40051545" + ZEROS, "0 0 6 821245150540" + "AA" * 34),
        ("writemsg 255 255 255 255 255 255 255 1 40051545" + ZEROS, "51 0 0 AA"),
    ):
        expect(line, served(line.encode()).decode(), answer + "\n")
    for line in (
        "readmsg", "readmsg ", "readmsgx 8212", "read msg 8212", "readmsg8212", "readms 8212", "READMSG 8212",
        "take 8212", "read 821245150540", "readmsg 8", "readmsg 821", "readmsg 821G", "readmsg 0x82", "readmsg --",
        "readmsg -82", "readmsg 82 12", "readmsg 8212 ", "readmsg - ", "takemsg", "takemsg ", "takemsg " + "00" * 41,
        "takemsg 0",
        "writemsg", "write msg 0 1 1 0 2 0 2 8 40051545" + ZEROS, "writemsgx 0 1 1 0 2 0 2 8 40051545" + ZEROS,
        "writemsg 0 1 1 0 2 0 2 8" + ZEROS, "writemsg 0 1 1 0 2 0 2 8 40051545 00000000" + ZEROS,
        "writemsg 0 1 1 0 2 0 2 40051545" + ZEROS, "writemsg 0 256 1 0 2 0 2 8 40051545" + ZEROS,
        "writemsg 0 1 1 0 2 0 256 8 40051545" + ZEROS, "writemsg 0 1 1 0 2 0 2 - 40051545" + ZEROS,
        "writemsg 0 1 1 0 2 0 2 256 40051545" + ZEROS, "writemsg 0 1 1 0 2 0 2 8 4005154" + ZEROS,
    ):
        expect(line, served(line.encode()), b"?\n")


def test_lines_of_summaries():
    for line, answer in EXAMPLES_OF_SUMMARIES:
        expect(line, served(line.encode()).decode(), answer + "\n")
    for line, answer in (
        ("summary 000" + ZEROS + " 00000000", "10 0 0" + " 0" * 28),
        ("summary 255 0001912C" + ZEROS, "10 0 0" + " 0" * 28),
        ("summary 02 0001912c D0000000" + ZEROS[9:], "12 2 0" + " 0" * 28),
        ("summary 1 0001912C" + " FFFFFFFF" * 6, "0 0 1 5000 5000 3000 3000" + " 0" * 24),
        ("quick 0 0001912C" + ZEROS + " 1004B12C", "10 0"),
        ("quick 1 0002D12C" + ZEROS + " 20000000", "11 1"),
        ("quick 2 0001912C D0000000" + ZEROS[9:] + " 20000000", "12 2"),
        ("quick 01 0001912c" + " ffffffff" * 6 + " 1004b12c", "0 0"),
        ("quick 1 0001912C" + ZEROS + " 1004B12D", "25 0"),
        ("quick 1 0001912C" + ZEROS + " 1404B12D", "0 0"),
        ("quick " + LIST_L + " 5004B241", "23 0"),
        ("quick " + LIST_L + " 5002C800", "22 0"),
        ("quick " + WITH_BATTERY + " 200324C8", "24 0"),
    ):
        expect(line, served(line.encode()).decode(), answer + "\n")
    for line in (
        "summary", "quick", "summary 1" + ZEROS, "summary 1 0001912C 00000000" + ZEROS, "summary 256 0001912C" + ZEROS,
        "summary 1 001912C" + ZEROS, "SUMMARY 1 0001912C" + ZEROS, "summary  1 0001912C" + ZEROS,
        "summary " + LIST_L + " ", "quick " + LIST_L, "quick " + LIST_L + " 5004B041 0", "quick " + LIST_L + " 5004B04",
        "Quick " + LIST_L + " 5004B041", "quick 256 0001912C" + ZEROS + " 1004B12C", "quick " + LIST_L + "  5004B041",
        "quick 5004B041 " + LIST_L,
    ):
        expect(line, served(line.encode()), b"?\n")


def test_lines_of_sinks():
    for line, answer in EXAMPLES_OF_SINKS:
        expect(line, served(line.encode()).decode(), answer + "\n")
    for line, answer in (
        ("sinkread 4 3F81912C 5A4190C8 99019096 C1FEFF7F" + ZEROS[27:], "15 4 0"),
        ("sinkread 4 3F81912C 5A4190C8 99019096 c1a4327f" + ZEROS[27:],
         "0 0 4 F 127 100 300 B 420 100 200 V 400 100 150 P 210 50 127"),
        ("sinkwrite 4 F 127 100 300 B 420 100 200 V 400 100 150 P 210 50 127",
         "0 0 4 3F81912C 5A4190C8 99019096 C1A4327F"),
        ("sinkwrite 1 F 255 100 300", "7 1 0"),
        ("sinkwrite 2 F 0 100 300 P 65535 50 60", "7 2 0"),
        ("sinkwrite 2 F 0 100 300 P 110 50 65535", "7 2 0"),
        ("sinkwrite 0", "10 0 0"),
        ("sinkwrite 255", "10 0 0"),
        ("sinkread 0" + ZEROS + " 00000000", "10 0 0"),
        ("sinkcheck 65535 0" + ZEROS + " 00000000", "1 0"),
        ("sinkcheck 0200 01 0001912C" + ZEROS, "0 0"),
    ):
        expect(line, served(line.encode()).decode(), answer + "\n")
    for line in (
        "sinkshape", "sinkread", "sinkwrite", "sinkcheck", "sink shape 1 0001912C" + ZEROS, "sinkshape 1" + ZEROS,
        "sinkshape 256 0001912C" + ZEROS, "sinkshape 1 0001912C 00000000" + ZEROS, "SINKREAD 1 0001912C" + ZEROS,
        "sinkcheck 65536 1 0001912C" + ZEROS, "sinkcheck 1 0001912C" + ZEROS, "sinkcheck  54 1 0001912C" + ZEROS,
        "sinkwrite 256", "sinkwrite 0 F 0 100 300", "sinkwrite 1 F 256 100 300", "sinkwrite 1 F 0 65536 300",
        "sinkwrite 1 F 0 0 100 300", "sinkwrite 2 F 0 100 300 P 1 110 50 60", "sinkwrite 2 F 0 100 300",
        "sinkwrite 2 F 0 100 300 A 300 0 0", "sinkwrite 1 f 0 100 300",
    ):
        expect(line, served(line.encode()), b"?\n")
