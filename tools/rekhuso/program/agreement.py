"""That the answers of the program are those of the questions."""

from __future__ import annotations

import re
from collections.abc import Sequence
from itertools import repeat

from ..faults import Trouble

# Look-ups at the map as it is, whose answers have its epoch and what was asked of; and with those at the follower's map
# the form of what follows.
LOOKS = ("up", "ups", "count", "groups")
PLACES, PRIMARY = re.compile(r"\[(?:(?:none|[0-9]+)(?:,(?:none|[0-9]+))*)?\]"), re.compile("-1|[0-9]+")
SETS = re.compile(f"(?: {PLACES.pattern})*")
SET = re.compile(f"{PLACES.pattern} (?:{PRIMARY.pattern})")
POOL = re.compile(f"{PLACES.pattern}{SETS.pattern}")
# Why a monitor takes all exceptions of a group away; a program of 0.2.0 tells none.
CAUSE = re.compile(
    "chooseleaf [0-9]+ [0-9]+ [0-9]+|choose [0-9]+ [0-9]+|(?:take [0-9]+|unreached) (?:none|[0-9]+)|out [0-9]+"
    "|idle-set|set-length|idle-pairs"
)
# What is left of a set without its digits.
COMMAS = re.compile(rb"\[,*\]")
FORMS = {
    "up": SET,
    "ups": POOL,
    "fup": SET,
    "fups": POOL,
    "count": re.compile("[0-9]+"),
    "groups": re.compile(r"\[[0-9a-f.,]*\]"),
    "fkept": re.compile(f"all|fewer|gone(?: (?:{CAUSE.pattern}))?"),
}


class Agreement:
    """What a session's answers must have of its questions: the group or the OSD that was asked of, and an epoch. The
    epochs of answers never go back; where nobody else changes the map they are those of this session's own changes.
    """

    def __init__(self) -> None:
        """Begins with no epoch."""
        self.epoch, self.is_alone = 0, False

    def check(self, lines: Sequence[str], answers: Sequence[str]) -> None:
        """A fault at the first answer that is none of its line."""
        if not are_sets_at(str(self.epoch), lines, answers):
            for line, answer in zip(lines, answers):
                self.check_answer(line, answer)

    def check_answer(self, line: str, answer: str) -> None:
        """A fault where an answer is none of its line."""
        word, _, asked = line.partition(" ")
        form = FORMS.get(word)
        if form is not None and answer.startswith(start := f"{word} {self.epoch} {asked} "):
            if word == "ups" and are_whole_sets(answer[len(start) :]) or form.fullmatch(answer, len(start)):
                return
        if form is not None and not answer.startswith("err "):
            self.check_look(word, asked, answer)
        elif answer.startswith(("ok ", "moved ")):
            words = answer.split(" ")
            self.epoch = number_in(words[1] if words[0] == "ok" else words[-1]) or self.epoch

    def check_look(self, word: str, asked: str, answer: str) -> None:
        """A fault where an answer is none of a look-up."""
        found = answer.split(" ", 3)
        is_its = len(found) == 4 and found[0] == word and found[2] == asked and FORMS[word].fullmatch(found[3])
        epoch = number_in(found[1]) if is_its else None
        if epoch is None or word in LOOKS and (epoch < self.epoch or self.is_alone and 0 < self.epoch < epoch):
            at = f" at epoch {self.epoch}" if self.epoch else ""
            raise Trouble(f"another program: to {f'{word} {asked}'[:60]!r}{at} it answers {answer[:60]!r}")
        if word in LOOKS:
            self.epoch = epoch


def are_sets_at(epoch: str, lines: Sequence[str], answers: Sequence[str]) -> bool:
    """Whether lines ask for up sets alone and all answers are theirs, with this epoch: most are, and are many."""
    if len(answers) != len(lines) or set(map(str.count, answers, repeat(" "))) != {4}:
        return False
    words = " ".join(answers).split(" ")
    is_its = (
        set(words[::5]) == {"up"} and set(words[1::5]) == {epoch} and list(map("up ".__add__, words[2::5])) == lines
    )
    is_set = is_its and SETS.fullmatch(" ".join(["", *words[3::5]])) is not None
    return is_set and all(map(PRIMARY.fullmatch, set(words[4::5])))


def are_whole_sets(text: str) -> bool:
    """Whether a text surely has the form of sets, of which none has an empty place: most have, and are long. So it is
    tried without its digits, of which none stands outside a set and some at each place.
    """
    sets = text.encode().translate(None, b"0123456789").split(b" ")
    is_full = text.startswith("[") and text.endswith("]") and text.count("] [") == len(sets) - 1
    return is_full and all(map(COMMAS.fullmatch, set(sets))) and not any(pair in text for pair in ("[,", ",,", ",]"))


def number_in(word: str) -> int | None:
    """The number that a word is; None where it is none."""
    return int(word) if word.isdigit() and len(word) <= 20 else None
