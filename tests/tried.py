"""How a test in Python reports what it has tried."""


def report(tried):
    """Prints a line for each thing that was tried, with whether it passed, and then the counts.

    `tried` has for the text of each whether it passed. Returns whether all did."""
    for what, has_passed in tried.items():
        print(f"{'passed' if has_passed else 'failed'}: {what}")
    passed = sum(map(bool, tried.values()))
    print(f"{passed} passed, {len(tried) - passed} failed")
    return passed == len(tried)
