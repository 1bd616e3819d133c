"""What holds the groups of a cluster behind a change: in words, and as scripts."""

from __future__ import annotations

from ..cluster.unrest import losing_lines
from ..plans.guards import ASKS_TO_STAY, AT_COMMANDS, AT_FIRST, AT_FLAG, AT_LAST, STAYS, STAYS_BEHIND_PARTS, TRAPS, WAS
from ..plans.hold import Hold
from ..words import counted, some
from .flow_words import move_words
from .hold_heads import HoldHead
from .origins import with_end
from .plan_scripts import client_words, comments

# How many groups that are not held are told by their names, for each reason.
MOST_LEFT = 40
# What is told above the commands.
TO_COME = [
    "order:  the change comes first, and nothing moves meanwhile: give its command behind the name of this script, as",
    '        sh hold.sh ceph osd setcrushmap -i NEW; it is run where "$@" stands. Pairs before it are taken away again',
    "at once: rekhuso together gives a CRUSH map and these commands within one map: then nothing is elsewhere at any",
    "        epoch",
]
MADE = ["order:  the change is made; give these soon, as what has moved by then comes back"]
BACK = [
    "order:  to take the change back too, give the command that does behind the name of this script: it is run where",
    '        "$@" stands; without one these groups go where the rules and those exceptions place them',
]
AFTER = [
    "after:  ceph status, until no group is misplaced; then `release` lets go, part by part",
    "undo:   the same words with --undo, over the same files, which are to be kept",
]
NEEDS_CHANGE = '[ $# -gt 0 ] || { echo "give the command of the change behind the name of this script" >&2; exit 2; }'
CHANGE, END = '"$@"', "ceph osd unset norebalance"
BEGIN = [*TRAPS, AT_FIRST, WAS, "ceph balancer off", "ceph osd set norebalance", AT_FLAG]
ENDING = [AT_LAST, STAYS, END]
# The lines of a script that are no commands on exceptions.
ROUND = [NEEDS_CHANGE, *BEGIN, CHANGE, AT_COMMANDS, *ENDING, STAYS_BEHIND_PARTS, ASKS_TO_STAY]


# What can be held instead, by the code of the reason why groups are not.
INSTEAD = {
    "weightless": "a weight of 0.0001 in place of 0 can be held: `drain` begins with it, and ends with 0",
    "out": "hold before out: a weight of 0.0001 can be held: `drain` begins with it, and ends with out",
}


def instead_lines(hold: Hold) -> list[str]:
    """What can be held in place of a change by which groups are not."""
    codes = {own.why.code for own in hold.left() if own.why is not None}
    return [words for code, words in INSTEAD.items() if code in codes]


def idle_lines(hold: Hold, tried: list[str]) -> list[str]:
    """That nothing is held, and what would be: what was tried, if that is known."""
    lines = hold_lines(hold)
    moving = counted(len(hold.moving()), "group")
    if hold.is_beside:
        return [f"nothing is held: of {moving} that would move none is chosen"]
    first = f"nothing is held: of {moving} that would move none can be"
    instead = instead_lines(hold)
    return [first, *(tried or instead), *(line for line in lines if line not in instead)]


def hold_lines(hold: Hold) -> list[str]:
    """What is held, and what is not by which reason."""
    told = hold.told()
    words = move_words(told["groups"], told["places"])
    are = "is" if told["held"] == 1 else "are"
    lines = [f"{words} by the change alone; {told['held']} of the groups {are} held"]
    by_step: dict[str, list[str]] = {}
    places: dict[str, int] = {}
    for own in told["left"]:
        by_step.setdefault(own["step"], []).append(own["group"])
        places[own["step"]] = places.get(own["step"], 0) + own["places"]
    for step, groups in sorted(by_step.items(), key=lambda own: (-len(own[1]), own[0])):
        moved = f"{counted(len(groups), 'group')} cannot be held, {counted(places[step], 'place')} of theirs"
        lines.append(f"{moved} {'moves' if places[step] == 1 else 'move'}: by {step}: {some(groups, MOST_LEFT)}")
    if told["filled"]["groups"]:
        filled = told["filled"]
        get = "group gets" if filled["groups"] == 1 else "groups get"
        lines.append(f"{filled['groups']} {get} {counted(filled['places'], 'place')} that they did not have")
    if told["other_primary"]:
        keep = "group keeps its" if len(told["other_primary"]) == 1 else "groups keep their"
        lines.append(f"{len(told['other_primary'])} {keep} OSDs with another primary")
    return lines + instead_lines(hold) + losing_lines(hold.unrest, told["losing"], MOST_LEFT)


def with_keeping(part: int, parts: list[list[str]], change: list[str], ends: list[str]) -> list[str]:
    """The commands of a part between what keeps data where it is and what ends that; the change comes first. What is
    asked in the end stands before that.
    """
    commands, count = parts[part - 1], len(parts)
    begin = [*BEGIN, *([ASKS_TO_STAY] if count > 1 else []), *change] if part == 1 else [*TRAPS]
    end = [*ends, AT_LAST, STAYS if count == 1 else STAYS_BEHIND_PARTS, END] if part == count else []
    return [*begin, AT_COMMANDS, *commands, *end]


def hold_script(hold: Hold, head: HoldHead, is_made: bool, part: int, parts: list[list[str]]) -> str:
    """A part of the commands with what is told of them: the first part begins by what keeps data where it is, and the
    change where that is still to come; the last part ends that. The last line says that the script is whole.
    """
    told, name = hold.told(), f", part {part} of {len(parts)}" if len(parts) > 1 else ""
    count, lines, is_undo = counted(len(parts[part - 1]), "command"), [*parts[part - 1]], head.is_undo
    own = head.lines(len(lines), part, len(parts))
    if is_undo:
        title = f"The way back from holding groups over epoch {hold.epoch}{name}, by {count}"
    else:
        of = head.origin.beside.of_read
        title = (
            f"Holds {told['held']} of {told['groups']} groups{of} that move, over epoch {hold.epoch}{name}, by {count}"
        )
    order = BACK if is_undo else MADE if is_made else TO_COME
    needs = [NEEDS_CHANGE] if part == 1 and not is_undo and not is_made else []
    guards = head.guards(part, parts[part - 2]).lines(lines)
    ends = head.ends([line for own in parts for line in own])
    lines = with_keeping(part, parts, [] if is_made and not is_undo else [CHANGE], ends)
    notes = [
        *client_words(hold.client),
        *(order if part == 1 else [f"order:  part {part - 1} is run before"]),
        *([] if is_undo else AFTER),
    ]
    above = comments([title, *head.origin.notes(), *notes])
    return with_end("\n".join([above[0], *own, *above[1:], "set -e", *needs, *guards, *lines]) + "\n")
