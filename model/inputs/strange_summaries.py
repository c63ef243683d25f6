"""Lines of summary and quick that cannot be read, and odd ones that can."""

from inputs.book import book

FIVE = " 00000000" * 5
WORDS = "0001912C 0002D12C" + FIVE
LIST = "2 " + WORDS
ASKED = " 2004B12C"
# Beside STRANGE_LINES, whose choices by chance stay as they were.
UNREADABLE = (
    # no such call
    "summarys " + LIST, "summar " + LIST, "summaries " + LIST, "summarize " + LIST, "SUMMARY " + LIST,
    "Summary " + LIST, "summarY " + LIST, "sum " + LIST, "sum mary " + LIST, "summary" + LIST, "sinksummary " + LIST,
    "quicks " + LIST + ASKED, "quic " + LIST + ASKED, "quickly " + LIST + ASKED, "QUICK " + LIST + ASKED,
    "Quick " + LIST + ASKED, "quicK " + LIST + ASKED, "quick answer " + LIST + ASKED, "quickanswer " + LIST + ASKED,
    "quick" + LIST + ASKED, "answerquick " + LIST + ASKED, "sinkquick " + LIST + ASKED, "decode " + LIST + ASKED,
    # a field missing
    "summary", "summary ", "summary 2", "summary 0", "summary 2 0001912C 0002D12C", "summary " + WORDS,
    "summary 2 0001912C" + FIVE, "summary 0" + FIVE, "summary " + LIST[:-9],
    "quick", "quick ", "quick 2", "quick 2 0001912C 0002D12C", "quick 2 0001912C 0002D12C" + ASKED, "quick " + LIST,
    "quick " + WORDS + ASKED, "quick 2 0001912C" + FIVE + ASKED, "quick" + ASKED, "quick " + LIST + " ",
    # a field left over
    "summary " + LIST + " 00000000", "summary " + LIST + ASKED, "summary " + LIST + " ", "summary " + LIST + " 0",
    "summary 2 " + LIST, "summary 72 72 300 0 1 0 " + LIST, "quick " + LIST + ASKED + " 00000000",
    "quick " + LIST + ASKED + ASKED, "quick " + LIST + ASKED + " ", "quick " + LIST + ASKED + " 0",
    "quick 2 " + LIST + ASKED, "quick 200 1 " + LIST + ASKED,
    # a space or another byte that is not expected
    " summary " + LIST, "summary  " + LIST, "summary 2  " + WORDS, "summary\t" + LIST, "summary " + LIST + "\r",
    "summary " + LIST + "\0", "summary " + LIST + "\xff", "summary \xb2 " + WORDS,
    " quick " + LIST + ASKED, "quick  " + LIST + ASKED, "quick " + LIST + " " + ASKED, "quick\t" + LIST + ASKED,
    "quick " + LIST + "\t2004B12C", "quick " + LIST + ASKED + "\r", "quick " + LIST + ASKED + "\0",
    "quick " + LIST + ASKED + "\xff",
    # a number too large, or none
    "summary 256 " + WORDS, "summary 257 " + WORDS, "summary 258 " + WORDS, "summary 65538 " + WORDS,
    "summary 4294967298 " + WORDS, "summary -2 " + WORDS, "summary +2 " + WORDS, "summary 0x2 " + WORDS,
    "summary 2.0 " + WORDS, "summary two " + WORDS, "summary 0256 " + WORDS,
    "quick 256 " + WORDS + ASKED, "quick 258 " + WORDS + ASKED, "quick 65538 " + WORDS + ASKED,
    "quick 18446744073709551618 " + WORDS + ASKED, "quick -2 " + WORDS + ASKED, "quick F " + WORDS + ASKED,
    # a word that is none
    "summary 2 001912C 0002D12C" + FIVE, "summary 2 00001912C 0002D12C" + FIVE, "summary 2 0x01912C 0002D12C" + FIVE,
    "summary 2 0001912G 0002D12C" + FIVE, "summary " + LIST[:-1], "summary " + LIST + "0", "summary 1 F 0 0 100 300",
    "quick 2 0001912C 002D12C" + FIVE + ASKED, "quick " + LIST + ASKED[:-1], "quick " + LIST + ASKED + "0",
    "quick " + LIST + " 004B12C", "quick " + LIST + " 0x04B12C", "quick " + LIST + " 2004B12G",
    "quick " + LIST + " 2", "quick " + LIST + " -", "quick " + LIST + " F 0 0 300 300",
    # over 512 bytes
    "summary " + "0" * 441 + LIST, "summary " + "0" * 600 + LIST, "quick " + "0" * 434 + LIST + ASKED,
    "quick " + LIST + ASKED + " " * 440, "quick " + "x" * 507,
)

ODD_BUT_READABLE = (
    "summary " + "0" * 440 + LIST, "summary 002 0001912c 0002d12c" + FIVE, "summary 2 0001912c 0002D12c" + FIVE,
    "summary 00 " + WORDS, "summary 0255 " + WORDS,
    "quick " + "0" * 433 + LIST + ASKED, "quick 02 0001912c 0002d12c" + FIVE + " 2004b12c",
    "quick 2 0001912C 0002D12C" + FIVE + " 2004b12C", "quick 000 " + WORDS + ASKED, "quick 0255 " + WORDS + ASKED,
)


def strange_lines():
    for line in UNREADABLE:
        assert book.put(line) == "?", line
    for line in ODD_BUT_READABLE:
        assert book.put(line) != "?", line
    assert sorted({len(line) for line in UNREADABLE + ODD_BUT_READABLE if 510 < len(line) < 515}) == [512, 513]
