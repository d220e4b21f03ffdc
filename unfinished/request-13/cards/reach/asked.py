"""What the proved program `drill` is asked about a card: which configurations are reached from its start, and which choices each of
them has and where they lead. Every rule of the guide is the drill's; here are the bytes of its requests and answers, in which
numbers are low byte first.
"""

import subprocess
from typing import NamedTuple

CARD, LOAD, LIST, TAKE, REACH = 0, 2, 4, 5, 19
DONE, PLAN_FULL, TOO_MANY = 0, 11, 24

# The bytes of a set, of an image before its plan, and of an entry; how many entries the room of a reach has; and the most choices
# of a list, the most moves that a reach goes and the most that two bytes hold.
SET, HEAD, ENTRY = 32, 71, 1124
ENTRIES, CHOICES, MOVES, LARGEST = 32, 768, 16, 65535

# Where a move leads that leads to no configuration of the list: to one with more moves than were asked for, or nowhere, since the
# plan would have over 1,024 actions.
FURTHER, FULL = "…", "full"


class NoAnswer(Exception):
    """The drill has not answered as it has to; in words."""


class Configuration(NamedTuple):
    """What is compared of a configuration: two sets of atoms, a bit each, and the actions of the plan."""

    beliefs: bytes
    goals: bytes
    plan: bytes


class Move(NamedTuple):
    """An enabled choice by its code, and where it leads: to a number of the list, FURTHER or FULL."""

    code: int
    to: object


class Reached(NamedTuple):
    """A configuration of the list: the codes of the choices by which it is reached, itself, and its moves."""

    choices: tuple
    configuration: Configuration
    moves: list


class Refused(NamedTuple):
    """A refusal's number, and the most moves with which there is none: with 11 and 24, else None."""

    number: int
    most: object


def two(number):
    """A number of two bytes."""
    return number.to_bytes(2, "little")


def numbers(data):
    """Bytes as numbers of two bytes."""
    return [int.from_bytes(data[at : at + 2], "little") for at in range(0, len(data), 2)]


def image(configuration):
    """The image of a configuration, with phase 0 and finished count 0: on neither depends what is enabled or where it leads."""
    beliefs, goals, plan = configuration
    return beliefs + goals + two(len(plan)) + bytes(3) + two(len(plan)) + plan


class Answers:
    """The drill's answers, read from the front."""

    def __init__(self, data):
        self.data, self.at = data, 0

    def next(self, count):
        """The next so many bytes."""
        self.at += count
        if self.at > len(self.data):
            raise NoAnswer("the drill has ended before its last answer")
        return self.data[self.at - count : self.at]

    def number(self):
        """The next number of two bytes."""
        return int.from_bytes(self.next(2), "little")

    def configuration(self):
        """The next image: the plan's last zeros are not written in it."""
        head = self.next(HEAD)
        length, written = numbers(head[64:66] + head[69:71])
        return Configuration(head[:SET], head[SET : 2 * SET], self.next(written).ljust(length, b"\0"))


class Drill(NamedTuple):
    """The words of the command that is the drill, and the card that it is asked about."""

    words: list
    card: bytes

    def ask(self, requests):
        """The answers to some requests."""
        asked = bytes([CARD]) + two(len(self.card)) + self.card + b"".join(requests)
        try:
            done = subprocess.run(self.words, input=asked, stdout=subprocess.PIPE)
        except OSError as error:
            raise NoAnswer("the drill cannot be run: %s" % error) from None
        if done.returncode != 0:
            raise NoAnswer("the drill itself failed, with status %d" % done.returncode)
        return Answers(done.stdout)


def entry(held):
    """The choices and the configuration of an entry: number of moves, sixteen choices, the plan's length, the sets, the plan."""
    moves, *choices, length = numbers(held[:36])
    return tuple(choices[:moves]), Configuration(held[36:68], held[68:100], held[100 : 100 + length])


def reaches(drill, start, distances):
    """For each number of moves the answer's number, and what is reached: choices and configuration of each."""
    room = ENTRIES * ENTRY
    answers = drill.ask(bytes([REACH]) + image(start) + two(min(most, LARGEST)) + two(room) for most in distances)
    for _ in distances:
        number, count, held = answers.number(), answers.number(), answers.next(room)
        yield number, [entry(held[ENTRY * k : ENTRY * (k + 1)]) for k in range(count)]


def codes_of(drill, configurations):
    """The codes of the enabled choices, each with the number of its configuration."""
    answers = drill.ask(bytes([LIST]) + image(one) + two(CHOICES) for one in configurations)
    found = []
    for k in range(len(configurations)):
        number, count, _, _ = numbers(answers.next(8))
        codes = numbers(answers.next(2 * CHOICES))
        if number != DONE:
            raise NoAnswer("the drill has no list of choices for configuration %d: %d" % (k, number))
        found += [(k, code) for code in codes[:count]]
    return found


def moves_of(drill, configurations):
    """The moves of each configuration."""
    known = {one: k for k, one in enumerate(configurations)}
    found = [[] for _ in configurations]
    codes = codes_of(drill, configurations)
    answers = drill.ask(bytes([TAKE]) + image(configurations[k]) + two(code) for k, code in codes)
    for k, code in codes:
        number, _, moved = answers.number(), answers.number(), answers.configuration()
        if number not in (DONE, PLAN_FULL):
            raise NoAnswer("the drill lists choice %d of configuration %d and refuses it: %d" % (code, k, number))
        found[k].append(Move(code, FULL if number == PLAN_FULL else known.get(moved, FURTHER)))
    return found


def most_answered(drill, start, most):
    """The most moves, under so many, with which all that is reached is listed."""
    distances = range(min(most, MOVES + 1))
    return max((d for d, (number, _) in zip(distances, reaches(drill, start, distances)) if number == DONE), default=None)


def reached(drill, most):
    """What a card reaches in at most so many moves, in the drill's order; or the refusal."""
    answers = drill.ask([bytes([LOAD])])
    number, start = answers.number(), answers.configuration()
    if number != DONE:
        return Refused(number, None)
    [(number, listed)] = reaches(drill, start, [most])
    if number != DONE:
        return Refused(number, most_answered(drill, start, most) if number in (PLAN_FULL, TOO_MANY) else None)
    moves = moves_of(drill, [configuration for _, configuration in listed])
    found = [Reached(*one, its) for one, its in zip(listed, moves)]
    for k, one in enumerate(found):
        if len(one.choices) < most and any(move.to in (FURTHER, FULL) for move in one.moves):
            raise NoAnswer("the drill does not list all that configuration %d leads to" % k)
    return found
