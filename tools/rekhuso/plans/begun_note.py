"""What a giver has begun, noted in the cluster for as long as it is not whole: so whoever gives next finishes it, where
that giver was killed, and nobody takes for begun what only looks so.
"""

from __future__ import annotations

import hashlib
import json
from dataclasses import asdict, dataclass, field

from ..cluster.connections import Connection
from ..faults import Fault
from ..files import JsonObject
from ..together import FLAG, INTERVAL, LEAST
from ..values import SLOTS

# The key of a cluster at which the note stands.
BEGUN_NOTE = "rekhuso/begun"


@dataclass(frozen=True, **SLOTS)
class BegunNote:
    """What is begun: the sum of its text and its name; whether norebalance is set by it; and which monitor gathers
    longer by it, with what it had before.
    """

    sum: str
    name: str
    has_flag: bool
    leader: str | None = None
    settings: dict[str, str] = field(default_factory=dict)

    def check_own(self, text: str) -> None:
        """A fault where it is not of a text."""
        if self.sum != sum_of_text(text):
            told = f"{self.name} is given by half: give it again, or go back by its --undo"
            raise Fault(f"{told} and `ceph config-key rm {BEGUN_NOTE}`; nothing is given")


def sum_of_text(text: str) -> str:
    """The sum of a script."""
    return hashlib.sha256(text.encode()).hexdigest()


def begun_in(connection: Connection) -> BegunNote | None:
    """What a giver has begun; None where nothing is begun. A fault where the note is of another form."""
    text = connection.json("config-key dump", key=BEGUN_NOTE).get(BEGUN_NOTE)
    try:
        return None if text is None else BegunNote(**json.loads(text))
    except (ValueError, TypeError):
        raise Fault(f"{BEGUN_NOTE} of the cluster's config-key is not read: nothing is given") from None


def put_note(connection: Connection, note: BegunNote) -> None:
    """Notes what is begun."""
    connection.ask({"prefix": "config-key set", "key": BEGUN_NOTE, "val": json.dumps(asdict(note))})


def drop_note(connection: Connection) -> None:
    """Takes the note away: what was begun is whole, or taken back."""
    connection.ask({"prefix": "config-key rm", "key": BEGUN_NOTE})


def is_flagged(dump: JsonObject) -> bool:
    """Whether norebalance is set."""
    return FLAG in str(dump.get("flags", "")).split(",")


def put_settings_back(connection: Connection, note: BegunNote | None) -> list[str]:
    """Has a monitor gather for as long as before, where a giver was killed that had it gather longer: what is told."""
    found = []
    for name, seconds in note.settings.items() if note is not None else ():
        target = None if note is None else note.leader
        now = json.loads(connection.ask({"prefix": "config get", "var": name}, target=target))[name]
        if now != seconds:
            connection.ask({"prefix": "config set", "var": name, "val": [seconds]}, target=target)
            found.append(f"{name} of mon.{target} was {now}, as a giver had left it, and is {seconds} again")
    return found


def settings_of(connection: Connection) -> dict[str, str]:
    """For how long the leading monitor gathers."""
    return {name: connection.setting(name) for name in (LEAST, INTERVAL)}
