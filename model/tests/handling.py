"""What the tests say in short: lists as built, requests, verdicts."""

import charger
from charger import Avs, Fixed


def of_default(m):
    return charger.default_profile(m).value


def words_built(profile):
    return list(charger.held_in(charger.build(profile).value))


def objects_in(words):
    return [charger.decode(word) for word in charger.held_in(words)]


def objects_built(profile):
    return objects_in(charger.build(profile).value)


def fixed_currents(profile):
    return [obj.current for obj in objects_built(profile) if isinstance(obj, Fixed)]


def avs_built(profile):
    return [(obj.low, obj.high) for obj in objects_built(profile) if isinstance(obj, Avs)]


def list_of(objects):
    return charger.list_of_words([charger.encode(obj) for obj in objects])


def verdict(answer):
    return (answer.number, answer.place)


def figures(position, operating, maximum=None, mismatch=0):
    maximum = operating if maximum is None else maximum
    return position << 28 | mismatch << 26 | operating << 10 | maximum


def volts(position, voltage, current):
    return position << 28 | voltage << 9 | current
