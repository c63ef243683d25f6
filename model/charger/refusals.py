"""Refusal numbers: how a public call answers or refuses."""

from collections import namedtuple
from functools import wraps

Answer = namedtuple("Answer", "number place value")


class Refused(Exception):
    """A refusal on its way out: its number and its place."""

    def __init__(self, number, place):
        self.number = number
        self.place = place


def refuse_if(wrong, number, place=0):
    if wrong:
        raise Refused(number, place)


def public_call(zero):
    """Success is 0 at place 0. On a refusal everything else in the answer is
    zero, a list is empty, a message is all zeros."""

    def public(judge):
        @wraps(judge)
        def call(*inputs):
            try:
                return Answer(0, 0, judge(*inputs))
            except Refused as refusal:
                return Answer(refusal.number, refusal.place, zero)

        return call

    return public
