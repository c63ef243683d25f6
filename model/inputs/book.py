"""The lines given and the lines answered: what the two files will hold."""

import console
from inputs.seed import rng
from inputs.unreadable import unreadable_line

UNREADABLE_SHARE = 0.018


class Book:
    """The lines given and the lines answered, in order."""

    def __init__(self):
        self.state = console.State()
        self.given = []
        self.answered = []

    def say(self, line):
        if rng.random() < UNREADABLE_SHARE:
            self.say_unreadable()
        return self.put(line)

    def put(self, line):
        answer = console.answer_line(self.state, line)
        self.given.append(line)
        self.answered.append(answer)
        return answer

    def say_unreadable(self):
        while True:
            line = unreadable_line(self.given)
            if "\n" not in line and console.answer_line(console.State(), line) == "?":
                break
        assert self.put(line) == "?"


book = Book()
