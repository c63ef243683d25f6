"""Tests of the model: the cases of the statement, of the console's page and of the notice,
and properties over seeded random inputs. Ends with `N passed, 0 failed`."""

import sys

from tests import (
    cables, expecting, listing, messages, notice, page, properties, requests, runs, sinks, statement, summaries,
)

THEMES = (statement, page, notice, properties, cables, requests, summaries, sinks, messages, runs, listing)


def main():
    for theme in THEMES:
        for name, test in sorted(vars(theme).items()):
            if name.startswith("test_"):
                test()
    print("%d passed, %d failed" % (expecting.passed, expecting.failed))
    sys.exit(1 if expecting.failed else 0)


if __name__ == "__main__":
    main()
