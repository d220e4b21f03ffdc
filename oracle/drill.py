"""The drill: requests on standard input, an answer for each on standard output.

The requests and answers are those of drill.md, with what the requests 1, 2, 4, 6, 8 and 9 of
document 02 add to them, with 21 "go on" and 22 "next", and with what `LANDED` names; numbers
of two or four bytes are low byte first.
"""

import struct
import sys

import bounded
import deliberation
import guide
import names
import text

# The requests of document 02 from 10 on that the drill of this tree has: "what the change
# requests add, each from its landing on". What is not in this set is not answered, and no
# case of it is made, stored or compared.
LANDED = {10, 11, 12}

CARD, CHECK, LOAD, GRADE, LIST, TAKE, RUN, SAVE, RESTORE, TEXT, PRINT = range(11)
DELIBERATE, NAME = 11, 12
BOUNDED_TAKE, BOUNDED_RUN = 13, 14
PLAIN_LOAD, PLAIN_LIST, PLAIN_TAKE, PLAIN_RUN = 15, 16, 17, 18
GO_ON, NEXT = 21, 22

# "15, 16, 17, 18 the plain engine's load, list, take, run": each by the request that it is
# read and answered as, "as 2, 4, 5, 6". Only the drill has them: the C header and the module
# for a page have no such calls.
PLAIN = {LOAD: PLAIN_LOAD, LIST: PLAIN_LIST, TAKE: PLAIN_TAKE, RUN: PLAIN_RUN}

IMAGE_LIMIT = 1024
LIST_LIMIT = 1024
SAVE_LIMIT = 2048
PLACE_LIMIT = 4096
TEXT_LIMIT = 65536
CARD_ROOM_LIMIT = 24200
PRINT_ROOM_LIMIT = 2048
PROGRAM_LIMIT = 1024
NUMBERS_LIMIT = 512

# "It is lent filled with EEEE hex", "lent filled with EE hex".
LENT = 0xEE


class BrokenRequest(Exception):
    """ "A request that breaks these rules ends the program." """


class Reader:
    """The bytes of the requests, read from the front."""

    def __init__(self, data):
        self.data = data
        self.at = 0

    def at_end(self):
        """Whether the input has ended."""
        return self.at == len(self.data)

    def next_bytes(self, count):
        """The next `count` bytes."""
        if self.at + count > len(self.data):
            raise BrokenRequest("the input ends inside a request")
        self.at += count
        return self.data[self.at - count:self.at]

    def byte(self):
        """The next byte."""
        return self.next_bytes(1)[0]

    def number(self, most=65535, size=2):
        """The next number of two bytes, or of four, `most` at most."""
        value = int.from_bytes(self.next_bytes(size), "little")
        if value > most:
            raise BrokenRequest("%d is more than %d" % (value, most))
        return value

    def image(self):
        """An image: "beliefs, goals (32 bytes each), plan length (2), phase (1), the
        finished count (2), m (2, at most 1,024), and the first m bytes of the plan's
        array; the rest of the array is zero"."""
        beliefs, goals = self.next_bytes(guide.SET_BYTES), self.next_bytes(guide.SET_BYTES)
        length, phase, finished = self.number(), self.byte(), self.number()
        plan = self.next_bytes(self.number(IMAGE_LIMIT)).ljust(guide.PLAN_LIMIT, b"\0")
        return guide.Configuration(beliefs, goals, plan, length, phase, finished)


def two(value):
    """A number as two bytes, low byte first."""
    return struct.pack("<H", value)


def four(value):
    """A number as four bytes, low byte first."""
    return struct.pack("<I", value)


def image(configuration, m=0):
    """The image of a configuration. "In an answer m is the least that serves";
    a request may say a greater one."""
    beliefs, goals, plan, length, phase, finished = configuration
    m = max(m, len(plan.rstrip(b"\0")))
    numbers = two(length) + bytes([phase]) + two(finished) + two(m)
    return beliefs + goals + numbers + plan[:m]


def answer_check(card, reader):
    """1 check: number (2)."""
    return two(guide.check(card))


def answer_load(card, reader):
    """2 load: number (2), image."""
    number, configuration = guide.load(card)
    return two(number) + image(configuration)


def answer_grade(card, reader):
    """3 grade: number (2), verdict (1), offender (1), its number (2)."""
    number, verdict, offender, n = guide.grade(card)
    return two(number) + bytes([verdict, offender]) + two(n)


def answer_list(card, reader):
    """4 list: number (2), count (2), "from 11 on conditions judged (2) and goals open (2),
    then the whole lent list"."""
    configuration, room = reader.image(), reader.number(LIST_LIMIT)
    number, count, judged, goals, codes = guide.listing(card, configuration, room)
    reported = two(judged) + two(goals) if 11 in LANDED else b""
    written = b"".join(two(code) for code in codes)
    return two(number) + two(count) + reported + lent(written, 2 * room)


def answer_take(card, reader):
    """5 take: number (2), "the node (2: with 16 the one that settled it, else
    0)", image."""
    return taken(*guide.take(card, reader.image(), reader.number()))


def taken(number, node, configuration):
    """What 5 and 13 answer."""
    return two(number) + two(node) + image(configuration)


def answer_run(card, reader):
    """6 run: number (2), image, count (2), ending (1)."""
    return ran(*guide.run(card, reader.image(), reader.number()))


def ran(number, configuration, count, ending):
    """What 6 and 14 answer."""
    return two(number) + image(configuration) + two(count) + bytes([ending])


def answer_save(card, reader):
    """7 save: number (2), then the whole lent buffer."""
    configuration, room = reader.image(), reader.number(SAVE_LIMIT)
    number, written = guide.save(card, configuration, room)
    return two(number) + lent(written, room)


def answer_restore(card, reader):
    """8 restore: number (2), image."""
    place = reader.next_bytes(reader.number(PLACE_LIMIT))
    number, configuration = guide.restore(card, place)
    return two(number) + image(configuration)


def answer_text(card, reader):
    """9 text: number (2), "place (4: with 17 the place of the byte, else 0), the
    card's length (2), then the whole lent buffer"."""
    held = reader.next_bytes(reader.number(TEXT_LIMIT, 4))
    room = reader.number(CARD_ROOM_LIMIT)
    number, place, built = text.read(held, room)
    built = built or b""
    return two(number) + four(place) + two(len(built)) + lent(built, room)


def answer_print(card, reader):
    """10 print: number (2), "the text's length (2), then the whole lent buffer"."""
    node, room = reader.number(), reader.number(PRINT_ROOM_LIMIT)
    number, printed = text.print_node(card, node, room)
    return two(number) + two(len(printed)) + lent(printed, room)


def answer_deliberate(card, reader):
    """11 deliberate: number (2), image, count (2), ending (1), m (2), "the remaining
    program: m numbers of one byte"."""
    program = reader.next_bytes(reader.number(PROGRAM_LIMIT))
    configuration, budget = reader.image(), reader.number()
    return deliberated(*deliberation.deliberate(card, program, configuration, budget))


def deliberated(number, configuration, count, ending, remaining):
    """What 11 and 21 answer."""
    moved = two(number) + image(configuration) + two(count) + bytes([ending])
    return moved + two(len(remaining)) + bytes(remaining)


def answer_name(card, reader):
    """12 name: number (2), sheet (1), start (2), length (2) of the part."""
    shed, master = reader.next_bytes(reader.number()), reader.next_bytes(reader.number())
    number, sheet, start, length = names.name(card, shed, master, reader.number())
    return two(number) + bytes([sheet]) + two(start) + two(length)


def answer_bounded_take(card, reader):
    """13 take on a bounded card: "as 5"."""
    return taken(*bounded.take(card, reader.image(), reader.number()))


def answer_bounded_run(card, reader):
    """14 run on a bounded card: "as 6"."""
    return ran(*bounded.run(card, reader.image(), reader.number()))


def answer_go_on(card, reader):
    """21 go on: "as 11; with a refusal m is 0"."""
    program = reader.next_bytes(reader.number(PROGRAM_LIMIT))
    numbers = reader.next_bytes(reader.number(NUMBERS_LIMIT))
    configuration, budget = reader.image(), reader.number()
    return deliberated(*deliberation.go_on(card, program, numbers, configuration, budget))


def answer_next(card, reader):
    """22 next: number (2), ending (1), "the code of the guide's own next choice" (2)."""
    number, ending, code = guide.next_move(card, reader.image())
    return two(number) + bytes([ending]) + two(code)


def lent(written, size):
    """A lent buffer of `size` bytes afterwards: "what lies after them stays"."""
    return written + bytes([LENT]) * (size - len(written))


ANSWERS = {
    CHECK: answer_check,
    LOAD: answer_load,
    GRADE: answer_grade,
    LIST: answer_list,
    TAKE: answer_take,
    RUN: answer_run,
    SAVE: answer_save,
    RESTORE: answer_restore,
    TEXT: answer_text,
    PRINT: answer_print,
    DELIBERATE: answer_deliberate,
    NAME: answer_name,
    GO_ON: answer_go_on,
    NEXT: answer_next,
}

# The calls that the requests of document 02 from 10 on add, by their number; 11 adds none.
LATER_ANSWERS = {
    10: {BOUNDED_TAKE: answer_bounded_take, BOUNDED_RUN: answer_bounded_run},
    11: {},
    12: {plain: ANSWERS[first] for first, plain in PLAIN.items()},
}
for landed in LANDED:
    ANSWERS.update(LATER_ANSWERS[landed])


def answer_request(card, reader):
    """Reads one request; the card of the requests that follow, and the answer."""
    kind = reader.byte()
    if kind == CARD:
        return reader.next_bytes(reader.number()), b""
    if kind not in ANSWERS:
        raise BrokenRequest("no request %d" % kind)
    return card, ANSWERS[kind](card, reader)


def each_answer(requests):
    """The answers, one after the other, until the input ends or a request
    breaks the rules. "At first the card of no bytes." """
    card, reader = b"", Reader(requests)
    while not reader.at_end():
        try:
            card, found = answer_request(card, reader)
        except BrokenRequest:
            return
        yield found


def answers(requests):
    """All the answers to a stream of requests."""
    return b"".join(each_answer(requests))


def answer(card, request):
    """The answer to one request about a card."""
    reader = Reader(request)
    _, found = answer_request(card, reader)
    if not reader.at_end():
        raise BrokenRequest("bytes after the request")
    return found


def main():
    """Reads requests on standard input and writes their answers."""
    for found in each_answer(sys.stdin.buffer.read()):
        sys.stdout.buffer.write(found)


if __name__ == "__main__":
    main()
