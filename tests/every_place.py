#!/usr/bin/env python3
"""Holds the reader of text cards against the independent one, on a text damaged at every place.

    python3 tests/every_place.py [FILE]

Of the text (cards/stripe.text) each byte in turn becomes each of the 256 bytes, is left out, has a sign of the grammar put before it, or is
where the text ends. Each of these texts goes through target/bin/drill, request 9 of drill.md, and the answer is compared byte for byte
with that of oracle/. The last line is 'N passed, M failed'.
"""

import os
import sys

import compare
from compare import TOP, cases, drill

SIGNS = b" 0(!&|#\nTBGad"
ROOM = 300
PER_RUN = 4000


def damaged(text):
    """The text, damaged at every place."""
    for place in range(len(text)):
        before, behind = text[:place], text[place + 1 :]
        yield from (before + bytes([byte]) + behind for byte in range(256))
        yield from (before + bytes([sign]) + text[place:] for sign in SIGNS)
        yield before + behind
        yield before


def main():
    """Compares all of them, some thousand in a run of the drill."""
    if len(sys.argv) > 2:
        sys.exit("usage: every_place.py [FILE]")
    path = sys.argv[1] if len(sys.argv) == 2 else os.path.join(TOP, "cards", "stripe.text")
    with open(path, "rb") as file:
        requests = [cases.request_text(text, ROOM) for text in damaged(file.read())]
    compare.build(("drill",))
    failed = 0
    for begin in range(0, len(requests), PER_RUN):
        asked = requests[begin : begin + PER_RUN]
        expected = [drill.answer(b"", request) for request in asked]
        if compare.output(compare.command("drill"), b"".join(asked)) == b"".join(expected):
            continue
        for request, answer in zip(asked, expected):
            if compare.output(compare.command("drill"), request) != answer:
                failed += 1
                print("differs: " + repr(request[5:-2]))
    print(f"{len(requests) - failed} passed, {failed} failed")
    sys.exit(1 if failed else 0)


if __name__ == "__main__":
    main()
