"""One expectation of a test, and how many were met."""

passed = 0
failed = 0


def expect(what, got, want=True):
    global passed, failed
    if got == want:
        passed += 1
    else:
        failed += 1
        print("failed: %s: got %r, want %r" % (what, got, want))
