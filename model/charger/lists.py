"""A list in hand: seven places and a count."""

from collections import namedtuple

from charger.object_words import Fixed
from charger.refusals import refuse_if

# "A list, of words or of objects, is seven places and a count. Only the places
# up to the count are looked at. Where a list is given back, the places past its
# count are zero; in a list of objects such a place is a fixed object with all
# its fields zero."
PLACES_IN_A_LIST = 7

Words = namedtuple("Words", "count places")
Objects = namedtuple("Objects", "count places")

NO_OBJECT = Fixed(0, 0, 0, 0)


def in_hand(form, given, empty):
    return form(len(given), tuple(given) + (empty,) * (PLACES_IN_A_LIST - len(given)))


def list_of_words(given):
    return in_hand(Words, given, 0)


def list_of_objects(given):
    return in_hand(Objects, given, NO_OBJECT)


NO_WORDS = list_of_words([])
NO_OBJECTS = list_of_objects([])


def held_in(a_list):
    """What the list holds: its places up to the count."""
    return a_list.places[: a_list.count]


def refuse_bad_count(a_list):
    """10: count outside 1 to 7."""
    refuse_if(not 1 <= a_list.count <= PLACES_IN_A_LIST, 10)
