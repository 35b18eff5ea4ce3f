"""Questions for the time to a level, and what documents 01 and 02 say to them.

They are the input of the program `levels_asked`: how many, and for each seven numbers. A line of its output has the time
to the target, the same as a level control has it, and the time to full or empty.
"""

from dataclasses import astuple, dataclass

from image import LEVELS, bits_of, float_of, numbers_words, shown, to_bytes
from steps import NEVER, time_to_fill_or_drain, time_to_reach
from values import TINIEST


@dataclass
class Question:
    """A tank, its head, a target level and its demand."""

    elevation: float = 100.0
    least: float = 0.0
    greatest: float = 12.0
    diameter: float = 20.0
    head: float = 110.0
    target: float = 12.0
    demand: float = 1.0

    def words(self):
        return numbers_words(astuple(self))

    def plain(self):
        """The same with a float for every number that is given by its bits."""
        return Question(*(float_of(bits_of(number)) for number in astuple(self)))

    def level(self):
        return self.head - self.elevation

    def seconds(self):
        """Document 01's: to the target, and to full or empty."""
        asked = self.plain()
        to_target = time_to_reach(asked, asked.level(), asked.target, asked.demand)
        return to_target, time_to_fill_or_drain(asked, asked.level(), asked.demand)

    def answer(self):
        return line(*self.seconds())

    def text(self):
        return " ".join(f"{name}={shown(value)}" for name, value in vars(self).items())


@dataclass
class Ask:
    """Some questions."""

    questions: list
    mode = LEVELS

    def input(self):
        return to_bytes([len(self.questions)] + [word for question in self.questions for word in question.words()])

    def answer(self):
        return "".join(question.answer() for question in self.questions)

    def text(self):
        return "\n".join(question.text() for question in self.questions)


def reach(seconds):
    """Document 02, R-5: "The old 0 is arrived, MAX never, the rest the same seconds"."""
    return {0: "arrived", NEVER: "never"}.get(seconds, str(seconds))


def line(to_target, to_either):
    """What is printed for the two numbers of a question."""
    return f"{reach(to_target)} {reach(to_target)} {reach(to_either)}\n"


def tank_t(level, demand, target=12.0, **changes):
    """Document 01's T. Its elevation is 0 here, so that its level is the number that is written."""
    return Question(**{**dict(elevation=0.0, head=level, target=target, demand=demand), **changes})


def instants():
    """Document 01's instants: the question, the time to its target and the time to full or empty, in its numbers."""
    yield tank_t(10.0, 1.0), 628, 628
    yield tank_t(10.0, 2.0), 314, 314
    yield tank_t(12.0, -1.0, target=0.0), 3_770, 0
    yield tank_t(12.0, -1.0), 0, 0
    yield tank_t(11.999, 1.0), 0, 0
    yield tank_t(11.998, 1.0), 1, 1
    yield tank_t(11.998, 2.0), 0, 0
    yield tank_t(10.0, TINIEST), NEVER, NEVER


def instant_answers():
    """The same as document 02 has them: the question and the line that answers it."""
    return ((question, line(*seconds)) for question, *seconds in instants())
