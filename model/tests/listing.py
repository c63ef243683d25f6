"""The listing program: the bytes of a record, and the records of the sweep."""

import charger
import sweep
from charger import Profile
from tests.expecting import expect
from tests.handling import words_built


def line_of(*record):
    (line,) = charger.listing(bytes(record))
    return line


def test_bytes_of_a_record():
    """"The cable byte counts 100 mA: 10 to 50 stand for 1 A to 5 A, and any other byte
    is refused with 3, in its turn.\""""
    for byte in range(256):
        line = line_of(200, 0, 200, 0, byte, 1, 1, 63)
        if 10 <= byte <= 50:
            words = words_built(Profile(200, 200, 100 * byte // 10, 1, 1, 63))
            expect("cable byte %d" % byte, line, "0 6 " + " ".join("%08X" % word for word in words))
            behind = ("4 0", "5 0", "6 0")
        else:
            expect("cable byte %d" % byte, line, "3 0")
            behind = ("3 0",) * 3
        expect("1 before it", line_of(0, 0, 0, 0, byte, 2, 2, 64), "1 0")
        expect("2 before it", line_of(200, 0, 201, 0, byte, 2, 2, 64), "2 0")
        expect("4 behind it", line_of(200, 0, 199, 0, byte, 2, 1, 64), behind[0])
        expect("5 behind it", line_of(200, 0, 199, 0, byte, 1, 1, 64), behind[1])
        expect("6 behind it", line_of(200, 0, 199, 0, byte, 1, 1, 63), behind[2])
    # 20 V at 2, 3, 4 and 5 A, whose figures stand in the last ten bits of the fourth word
    for byte, word in ((20, "000640C8"), (30, "0006412C"), (40, "00064190"), (50, "000641F4")):
        expect("20 V with the byte %d" % byte, line_of(200, 0, 200, 0, byte, 0, 0, 0).split(" ")[5], word)
    expect("high bytes of M and P", line_of(200, 1, 200, 0, 30, 0, 0, 0), "1 0")
    expect("high byte of P", line_of(200, 0, 200, 1, 30, 0, 0, 0), "2 0")


def test_records_of_the_sweep():
    """As many as its docstring says, each cable byte among them."""
    count, cables = 0, set()
    for records in sweep.sweep_records():
        expect("whole records", len(records) % charger.RECORD_BYTES, 0)
        count += len(records) // charger.RECORD_BYTES
        cables |= set(records[4 :: charger.RECORD_BYTES])
    expect("all of them", count, 20100 * 41 * 4 + 11 * 256)
    expect("and said so", "{:,} in all".format(count) in sweep.__doc__)
    expect("every cable byte", cables, set(range(256)))
