"""Request 10 of document 02 ("no dead button on bounded cards"): "a run and a chosen move for
bounded cards that start from a plan weighing at most 1,024".

They stand beside the old calls. "11 and the ending full cannot arise there": where one did,
the oracle ends.
"""

import guide
from guide import DONE, FULL, NO_OFFENDER, PLAN_FULL, WEIGHT_LIMIT

# "22 the card is open or the plan too heavy, after 13."
OPEN_OR_HEAVY = 22


class CannotArise(Exception):
    """11 or "full" on a bounded card, from a plan that weighs at most 1,024."""


def card_is_open(accepted):
    """ "A card is bounded exactly if ... Otherwise it is open." """
    return guide.first_offender(accepted) != (NO_OFFENDER, 0)


def plan_is_too_heavy(accepted, configuration):
    """ "A plan weighing at most 1,024", of the configuration that is handed in: it weighs
    more."""
    return guide.weigh(accepted, configuration.plan[:configuration.length]) > WEIGHT_LIMIT


def judge_bounded(card, configuration):
    """The number of a card and of the configuration handed in with it: 1 to 9, 13, and "22
    the card is open or the plan too heavy, after 13"."""
    refusal, accepted = guide.judge_both(card, configuration)
    if refusal != DONE:
        return refusal
    if card_is_open(accepted) or plan_is_too_heavy(accepted, configuration):
        return OPEN_OR_HEAVY
    return DONE


def take(card, configuration, choice):
    """A chosen move on a bounded card: 22 stands before 14, 15 and 16, and otherwise the
    answer is that of the old call. Answers number, node and configuration."""
    refusal = judge_bounded(card, configuration)
    if refusal != DONE:
        return refusal, 0, configuration
    answer = guide.take(card, configuration, choice)
    if answer[0] == PLAN_FULL:
        raise CannotArise("11 by choice %d of the card %s" % (choice, card.hex()))
    return answer


def run(card, configuration, budget):
    """A run on a bounded card, which ends spent or at rest: the answer of the old call.
    Answers number, configuration, count and ending."""
    refusal = judge_bounded(card, configuration)
    if refusal != DONE:
        return refusal, configuration, 0, 0
    answer = guide.run(card, configuration, budget)
    if answer[3] == FULL:
        raise CannotArise("full with budget %d of the card %s" % (budget, card.hex()))
    return answer
