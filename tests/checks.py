"""Counts what tests find right and wrong."""
import sys

passed = failed = 0


def check(name, is_right, why=""):
    """Counts whether something is right, and says it where it isn't."""
    global passed, failed
    if is_right:
        passed += 1
    else:
        failed += 1
        print(f"FAILED {name}: {why}")


def end():
    """Says how many passed and failed, in the last line, and ends the program."""
    print(f"{passed} passed, {failed} failed")
    sys.exit(1 if failed else 0)
