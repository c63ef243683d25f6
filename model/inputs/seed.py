"""The one source of chance: a fixed seed, so the same files come out each time."""

import random

SEED = 20040101
# A part that begins from a seed of its own stays as it is when a part before it
# changes.
SEED_OF_MESSAGES = 20040102
SEED_OF_SINKS = 20040103
SEED_OF_CABLES = 20040104
SEED_OF_SUMMARIES = 20040105

rng = random.Random(SEED)
