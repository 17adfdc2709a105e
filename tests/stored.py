"""What the tests of stored vectors share: a program's stored output beside the lines that a plain computation gives."""
import sys
from pathlib import Path

CRATES = Path(__file__).parent.parent / "crates"


def compare(crate, lines):
    """Prints each line in which the crate's stored output differs, and the tally; gives the exit status."""
    found = (CRATES / crate / "stdout").read_text().splitlines()
    expected = list(lines)
    wrong = 0
    for i in range(max(len(found), len(expected))):
        pair = [texts[i] if i < len(texts) else "nothing" for texts in (expected, found)]
        if pair[0] != pair[1]:
            wrong += 1
            print(f"line {i + 1}: expected {pair[0]}, stored {pair[1]}")
    print(f"{len(expected)} lines of {crate} compared")
    passed = expected and not wrong
    print("1 passed, 0 failed" if passed else "0 passed, 1 failed")
    return 0 if passed else 1


def main(crate, lines):
    """Compares, or with an argument prints the lines."""
    if len(sys.argv) > 1:
        print("\n".join(lines))
    else:
        sys.exit(compare(crate, lines))


def told(refusal, value):
    """A refusal in words, or the value."""
    return f"refused {refusal}" if refusal else str(value)
