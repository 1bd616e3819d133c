"""A session of a program that runs: lines that go in, answers that come out."""

# mypy: enable-incomplete-feature=Unpack
from __future__ import annotations

import json
import threading
from collections.abc import Callable, Iterable, Mapping
from itertools import chain, islice
from typing import IO, TYPE_CHECKING, NoReturn

from ..faults import Closed, Refused, Trouble
from ..running import doing
from ..words import counted
from .agreement import Agreement
from .answers import (
    Left,
    Made,
    Moved,
    PoolSets,
    Up,
    accepted_answer,
    balance_line,
    left_of,
    pool_sets_of,
    up_of,
    ups_in,
    ups_of,
)
from .map_forms import PARTS
from .maps import ChangeParts, Map, Pool, groups_in, written
from .process import Patience

if TYPE_CHECKING:
    from typing_extensions import Unpack

# The number of the refusal of a line that the program does not have, and the most moves of one plan of the program.
NO_LINE, MOST_MOVES = 33, 1024


def check_parts(name: str, parts: Mapping[str, object]) -> None:
    """A TypeError for a keyword of a call that is the key of no part of a change."""
    for key in parts:
        if key not in PARTS:
            raise TypeError(f"{name}() got an unexpected keyword argument {key!r}")


class Session:
    """A session of a program that runs: where its lines go, where its answers come from, what tells why it has
    ended, and how long an answer may take. In examples it is that of a monitor of examples/map.json under `stock`.

    >>> monitor.change(down=[2]), monitor.apply(up=[2])
    (Made(epoch=2, evals=0), Made(epoch=3, evals=0))
    """

    def __init__(
        self,
        lines: IO[bytes],
        answers: IO[bytes],
        gone: Callable[[], NoReturn],
        patience: Patience,
        has_pool_lines: bool = False,
    ) -> None:
        """Takes two open pipes, what raises the fault of a program that has ended, who watches waits, and whether the
        program tells whole pools in one answer, as it does under `stock`.
        """
        self._lines, self._answers, self._gone, self._patience = lines, answers, gone, patience
        self._is_closed, self._agreement, self._has_pool_lines = False, Agreement(), has_pool_lines

    # Lines and their answers

    def _send(self, text: bytes) -> None:
        """Puts text to the program."""
        try:
            self._lines.write(text)
            self._lines.flush()
        except (BrokenPipeError, ValueError):
            pass

    def _answer(self) -> str:
        """The next answer."""
        try:
            line = self._answers.readline()
        except ValueError:  # Another thread has closed it meanwhile.
            raise Closed from None
        if not line.endswith(b"\n"):
            self._gone()
        return line[:-1].decode("utf-8", "replace")

    def one(self, line: str) -> str:
        """The answer of one line, which is not empty and has no newline; a refusal ends this as `Refused`.

        >>> monitor.one("up 1.0")
        'up 1 1.0 [3,2,0] 3'
        """
        if not line or "\n" in line:
            raise ValueError("a line that is empty, or more than one")
        self._check_open()
        with self._patience:
            self._send((line + "\n").encode("utf-8", "surrogateescape"))
            answer = self._answer()
        self._agreement.check([line], [answer])
        return accepted_answer(answer)

    def _check_open(self) -> None:
        """`Closed` where the monitor was closed."""
        if self._is_closed:
            raise Closed

    def raw(self, lines: list[str]) -> list[str]:
        """The answer of each line, refusals among them. The lines go in beside the answers that come out.

        >>> monitor.raw(["epoch", "up 9.0"])
        ['epoch 1', 'err 23 UnknownPool']
        """
        self._check_open()
        text = "\n".join([*lines, ""]).encode("utf-8", "surrogateescape")
        sender = threading.Thread(target=self._send, args=(text,), daemon=True)
        sender.start()
        wanted = sum(map(bool, text.split(b"\n")))
        with self._patience:
            try:
                answers = b"".join(islice(self._answers, wanted)).decode("utf-8", "replace").split("\n")
            except ValueError:  # Another thread has closed it meanwhile.
                raise Closed from None
            if len(answers) <= wanted:
                self._gone()
            sender.join()
        del answers[wanted:]
        if wanted == len(lines):
            self._agreement.check(lines, answers)
        return answers

    def ask(self, lines: list[str]) -> list[str]:
        """The answer of each line; a refusal ends this as `Refused`.

        >>> monitor.ask(["epoch", "count 3"])
        ['epoch 1', 'count 1 3 1']
        """
        answers = self.raw(lines)
        for answer in answers:
            if answer.startswith("err "):
                accepted_answer(answer)
        return answers

    # Questions

    def epoch(self) -> int:
        """The epoch.

        >>> monitor.epoch()
        1
        """
        return int(self.one("epoch").split(" ")[1])

    def up(self, group: str) -> Up:
        """The up set of a group, as `1.0`.

        >>> monitor.up("1.0")
        Up(epoch=1, places=[3, 2, 0], primary=3)
        """
        return up_of(self.one(f"up {group}"))

    def ups(self, groups: list[str]) -> dict[str, Up]:
        """The up set of each group.

        >>> monitor.ups(["1.0"])
        {'1.0': Up(epoch=1, places=[3, 2, 0], primary=3)}
        """
        doing(f"asking for {counted(len(groups), 'group')}")
        return dict(zip(groups, ups_of(self.ask([f"up {group}" for group in groups]))))

    def pool_ups(self, pools: Iterable[Pool]) -> dict[str, Up]:
        """The up set of each group of some pools, which have as many groups as the map has there. Under `stock` a line
        asks for a whole pool.

        >>> monitor.pool_ups(monitor.dump()["pools"])
        {'1.0': Up(epoch=1, places=[3, 2, 0], primary=3)}
        """
        asked = list(pools)
        groups = [group for pool in asked for group in groups_in(pool)]
        if not self._has_pool_lines:
            return self.ups(groups)
        return dict(zip(groups, chain.from_iterable(map(ups_in, self._whole(asked)))))

    def pool_sets(self, pools: Iterable[Pool]) -> dict[str, list[int | None]]:
        """The places of the same up sets.

        >>> monitor.pool_sets(monitor.dump()["pools"])
        {'1.0': [3, 2, 0]}
        """
        asked = list(pools)
        groups = [group for pool in asked for group in groups_in(pool)]
        if not self._has_pool_lines:
            return {group: up.places for group, up in self.ups(groups).items()}
        return dict(zip(groups, chain.from_iterable(own.sets for own in self._whole(asked))))

    def _whole(self, pools: list[Pool]) -> list[PoolSets]:
        """The answer for each of some pools, which is asked for as a whole. A fault where it has another number of
        groups.
        """
        doing(f"asking for {counted(sum(pool['pg_num'] for pool in pools), 'group')}")
        lines = [f"ups {pool['id']}" for pool in pools]
        found = list(map(pool_sets_of, self.ask(lines)))
        for pool, line, own in zip(pools, lines, found):
            if len(own.sets) != pool["pg_num"]:
                raise Trouble(f"another program: to {line!r} it answers {counted(len(own.sets), 'set')}")
        return found

    def count(self, osd: int) -> int:
        """In how many groups' up sets an OSD stands.

        >>> monitor.count(3)
        1
        """
        return int(self.one(f"count {osd}").split(" ")[3])

    def counts(self, osds: Iterable[int]) -> dict[int, int]:
        """In how many groups' up sets each of some OSDs stands.

        >>> monitor.counts([1, 2])
        {1: 0, 2: 1}
        """
        asked = list(osds)
        return {
            osd: int(answer.split(" ")[3]) for osd, answer in zip(asked, self.ask([f"count {osd}" for osd in asked]))
        }

    def groups(self, osd: int) -> list[str]:
        """In which groups' up sets an OSD stands.

        >>> monitor.groups(3)
        ['1.0']
        """
        groups = self.one(f"groups {osd}").split(" ")[3][1:-1]
        return groups.split(",") if groups else []

    def dump(self) -> Map:
        """The map as it is.

        >>> monitor.dump()["pools"]
        [{'id': 1, 'kind': 'replicated', 'pg_num': 1, 'pgp_num': 1, 'rule': 0, 'size': 3}]
        """
        value: Map = json.loads(self.text())
        return value

    def text(self) -> str:
        """The written form of the map as it is.

        >>> monitor.text().endswith(',"version":1}')
        True
        """
        return self.one("dump").removeprefix("dump ")

    # The follower

    def follow(self) -> int:
        """Takes the session's follower on to the last change, and tells the epoch that it has then reached.

        >>> monitor.follow()
        1
        """
        return int(self.one("follow").split(" ")[1])

    def follower_kept(self, group: str) -> Left:
        """What Ceph's monitor would leave of a group's exceptions at the follower's map; of a group without any,
        whether one could stay at the set that it has. A map under `stock` alone takes it.

        >>> monitor.follower_kept("1.0")
        Left(epoch=1, what='all', why='')
        """
        return left_of(self.one(f"fkept {group}"))

    def left(self, groups: Iterable[str]) -> dict[str, str]:
        """What Ceph's monitor would leave of the exceptions of each group at the map as it is: `all`, `fewer` or
        `gone`. A fault where the program has no such line.

        >>> monitor.left(["1.0"])
        {'1.0': 'all'}
        """
        asked = list(groups)
        try:
            answers = self.ask(["follow", *(f"fkept {group}" for group in asked)])[1:]
        except Refused as refused:
            if refused.number != NO_LINE:
                raise
            raise Trouble("the program has no line `fkept`: it is older than these tools, or has no --stock") from None
        return {group: left_of(answer).what for group, answer in zip(asked, answers)}

    # Changes

    def change(self, base: int | None = None, **parts: Unpack[ChangeParts]) -> Made:
        """Commits a change: its parts by their keys, as `down=[2]`. Without a base it is the present epoch. TypeError
        for a key that no change has.
        """
        check_parts("change", parts)
        value = dict(parts, base=self.epoch() if base is None else base)
        _, epoch, _, evals = self.one(f"change {written(value)}").split(" ")
        return Made(int(epoch), int(evals))

    def apply(self, **parts: Unpack[ChangeParts]) -> Made:
        """Commits a change to whatever map it finds: its parts by their keys, as `down=[2]`. No other session's change
        makes it stale. A map under `stock` alone takes it. TypeError for a key that no change has.
        """
        check_parts("apply", parts)
        _, epoch, _, evals = self.one(f"apply {written(parts)}").split(" ")
        return Made(int(epoch), int(evals))

    def balance(
        self, pool: int, most: int = MOST_MOVES, apart: int = 256, carried: Mapping[int, int] | None = None
    ) -> Moved:
        """Plans moves of groups of a pool, at most so many, and commits them. In 256ths of a group: by how much two
        OSDs must differ for a move between them, and how much an OSD counts as having beside its groups of the pool.
        A map under `stock` alone takes either.

        >>> monitor.balance(1)
        Moved(moves=0, epoch=1)
        """
        _, moves, _, epoch = self.one(balance_line(pool, most, apart, carried)).split(" ")
        return Moved(int(moves), int(epoch))
