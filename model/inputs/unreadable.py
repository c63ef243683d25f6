"""Lines the console cannot read."""

from inputs.seed import rng


def damaged_line(line):
    """A line that was good, made unreadable in one way."""
    fields = line.split(" ")
    at = rng.randrange(len(fields))
    way = rng.randrange(18)
    if way == 0:
        return line + " 0"
    if way == 1:
        return " ".join(fields[:-1])
    if way == 2:
        return " ".join(fields[:at] + [""] + fields[at:])
    if way == 3:
        return line + " "
    if way == 4:
        return " " + line
    if way == 5:
        return line.replace(" ", "\t", 1)
    if way == 6:
        return line + "\r"
    if way == 7:
        return fields[0].upper() + line[len(fields[0]):]
    if way == 8:
        return fields[0][:-1] + line[len(fields[0]):]
    if way == 9:
        fields[at] += rng.choice(("x", "\0", "\xb2", "\xff", ".", ","))
    if way == 10:
        fields[at] = rng.choice(("-1", "+1", "0x1", "1.0", "1e1", "", "F", "word", "-0", "_1", "1_0"))
    if way == 11:
        fields[at] = rng.choice(("65536", "65537", "4294967296", "18446744073709551616", "9" * 60))
    if way == 12:
        fields[1:2] = [rng.choice(("65536", "131072", "99999"))]
    if way == 13:
        fields[-1] = fields[-1][:-1]
    if way == 14:
        fields[-1] += "0"
    if way == 15:
        fields[-1] = "g" + fields[-1][1:]
    if way == 16 and fields[0] != "write":
        fields[at] = "256"
    if way == 17:
        return line + " " * (513 - len(line)) + "0" * rng.choice((0, 0, 1, 2000))
    return " ".join(fields)


# Grouped by what is wrong with them.
STRANGE_LINES = (
    # empty, or no call
    "", "", "", " ", "?", "0", "\r", "\t", "\0", "hello", "help", "exit", "quit", "> table", "x" * 512,
    "BUILD 72 72 300 0 1 0", "Build 72 72 300 0 1 0", "builds 72 72 300 0 1 0", "\xef\xbb\xbfdefault 72",
    # over 512 bytes
    "x" * 513, "a" * 5000, "x" * 600 + " table", "default " + "0" * 510 + "72", "default 72" + " " * 503,
    # a field missing
    "build", "build 72 72 300 0 1", "default", "setup", "attach 200 1", "advertise 200", "request 200 1",
    "detach 200", "remaining", "shape 1 0001912C", "shape" + " 0001912C" * 7, "rows 1 2 3 4", "write 1",
    "write 1 F 0 0 100", "write 2 F 0 0 100 300", "write 1 0 0 100 300",
    # a field left over
    "default 72 72", "default 7 2", "setup 200 1", "remaining 200 1", "table 1", "table ", "rows ",
    "rows 1 2 3 4 5 6", "shape 1" + " 00000000" * 8, "write 0 F 0 0 100 300", "write 8 F 0 0 100 300",
    "write 1 F 0 0 100 300 0", "write 1 F 0 0 100 300 F 0 0 180 300",
    "rows" + " 100 0 0 0 15" * 10, "rows" + " 100 0 0 0 15" * 9 + " 1",
    # not a number, not a word of 8 hex digits, not an object
    "default seventy", "default \xb2", "default 72;", "rows -1", "request 200 1 1", "write 1 f 0 0 100 300",
    "write 1 X 0 0 100 300", "write 1 F0 0 100 300", "shape 1 1912C" + " 00000000" * 6,
    "shape 1 0x01912C" + " 00000000" * 6, "shape 1 00001912C" + " 00000000" * 6,
    # a number that its parameter cannot hold
    "default 65536", "build 65536 72 300 0 1 0", "build 72 65536 300 0 1 0", "build 72 72 65536 0 1 0",
    "build 72 72 65836 0 1 0", "build 72 72 300 256 1 0", "build 72 72 300 0 256 0", "build 72 72 300 0 1 256",
    "check 72 72 65536 0 1 0 1 0001912C" + " 00000000" * 6, "shape 256" + " 00000000" * 7, "write 256", "setup 65536",
    "attach 200 256 300", "attach 200 1 65536", "attach 200 1 65836", "rows 65536 0 0 0 15", "rows 100 256 0 0 15",
    "rows 100 0 65536 0 15", "rows 100 0 65836 60 15", "rows 100 0 0 65536 15", "rows 100 0 0 0 65536",
)


def unreadable_line(given):
    """A strange line, or a good one damaged; the caller sees that it is so."""
    if rng.random() < 0.45 or not given:
        return rng.choice(STRANGE_LINES)
    return damaged_line(rng.choice(given[-200:]))
