"""`whatif`: what moves if a change is made: two runs over all groups, and their difference.

The change is a line of a script (`change {..}`, or its JSON alone), also in a file, or is put together from options,
which stand for commands in their order: at each, as at the change, Ceph's monitor takes away the exceptions that have
become unlawful.
An OSD is named by its number, several by the bucket that they stand below (its id, or its name where --names knows it,
or the dumps do).
"""

from __future__ import annotations

from dataclasses import dataclass

from ..cluster.aftermath import Command, StateChange
from ..cluster.cluster import Cluster
from ..cluster.names import Names, named
from ..cluster.sources import Source
from ..cluster.view import ClusterView, view_of
from ..faults import Fault, Misuse
from ..files import JsonObject, put
from ..output.flow_picture import flow_picture
from ..output.flow_words import flow_lines, fullest_words, move_words, unbalanced_words
from ..output.json_output import put_json
from ..plans.question import Balance, Question
from ..program.maps import Map, Program, altered
from ..values import SLOTS
from ..words import counted
from .arguments import ABOUT_FILES, FILES, Arguments, Commands, add_json, add_names, putting, set_work, source_of, usage
from .change_words import ChangeWords, add_change_words, change_words, files_and_change
from .whatif_words import number_of, osds_below


def level_of(value: Map, names: Names, word: str) -> int:
    """The type of buckets that a word names, by its name or its number. A fault that lists the types there are where
    it is none of the map's.
    """
    types = names.get("types", {})
    named_so = next((int(number) for number, name in types.items() if name == word), None)
    level, there = number_of(word, {}) if named_so is None else named_so, sorted(
        {bucket["type"] for bucket in value["buckets"]}
    )
    if level is None or level not in there:
        known = [f"{number} ({types[str(number)]})" if str(number) in types else str(number) for number in there]
        raise Fault(f"{word}: no type of the map's buckets; there are " + ", ".join(known))
    return level


def drill(question: Question, word: str, is_json: bool) -> None:
    """Tells what each bucket of a type would move if it went out, one after the other: a line each, or all as
    JSON.
    """
    value, names = question.whole.tree, question.whole.names
    level, there = level_of(value, names, word), {osd["id"] for osd in value["osds"] if osd["exists"]}
    rows = []
    for line in [] if is_json else question.warnings():
        print(line)
    for bucket in (own for own in value["buckets"] if own["type"] == level):
        weights = [[osd, 0] for osd in sorted(osds_below(value, bucket["id"])) if osd in there]
        found, _ = question.result([StateChange({"weight": weights})])
        name = named(names, "buckets", bucket["id"])
        rows.append({"id": bucket["id"], "name": name, **found})
        if not is_json:
            low = len(found["below_min_size"])
            unbalanced = "".join(f"; {words}" for words in unbalanced_words(found, names))
            print(
                f"{name}: {move_words(found['groups'], found['places'])}; {fullest_words(found)}; "
                f"{counted(len(found['short']), 'group')} short, {len(found['short_anew'])} of them anew, "
                f"{low} {'falls' if low == 1 else 'fall'} below min_size{unbalanced}"
            )
    if is_json:
        put_json("whatif", value["epoch"], buckets=rows, **question.whole.beside(None, True).parts())


@dataclass(frozen=True, **SLOTS)
class WhatifOptions:
    """What a change is made to, and the change; the type of buckets that go out in turn, if they do; how the cluster is
    balanced afterwards, if it is; whether it is told what a hold of the change would leave; the file for a picture, if
    there is one; and whether all is told as JSON.
    """

    source: Source
    asked: ChangeWords
    each: str | None
    balance: Balance | None
    is_held: bool
    picture: str | None
    is_json: bool

    def check(self) -> None:
        """An error of use where options stand together of which one would be passed over, or where nothing is asked."""
        more = (["--picture"] if self.picture is not None else []) + (["--hold"] if self.is_held else [])
        given = self.asked.given() + more
        if self.each is not None and given:
            raise Misuse(f"{given[0]} does not go with --each")
        if self.each is None and self.balance is None and not self.asked.given():
            raise Misuse("nothing is changed: give CHANGE, an option as --out, or --each TYPE")
        if self.is_held and self.balance is not None:
            raise Misuse("--hold does not go with --balance: what is held is planned over by `plan`, or released")


def options_of(arguments: Arguments) -> WhatifOptions:
    """The options of the command line. An error of use where one would be passed over."""
    files, change = files_and_change(arguments.words)
    if len(files) > 2:
        raise Misuse("whatif takes one map, or two dumps, and a change")
    if arguments.anyway and not arguments.balance:
        raise Misuse("--anyway goes with --balance alone")
    found = WhatifOptions(
        source=source_of(arguments, files),
        asked=change_words(arguments, change),
        each=arguments.each,
        balance=Balance(arguments.anyway) if arguments.balance else None,
        is_held=arguments.hold,
        picture=arguments.picture,
        is_json=arguments.json,
    )
    found.check()
    return found


def pictured(whole: ClusterView, now: ClusterView) -> Map:
    """The tree under which the picture draws OSDs: that of the cluster then, and beside it what stands only in that
    before.
    """
    seen = {item for bucket in now.tree["buckets"] for item, _ in bucket["items"]}
    more = [
        altered(bucket, items=[item for item in bucket["items"] if item[0] not in seen])
        for bucket in whole.tree["buckets"]
    ]
    return altered(now.tree, buckets=[*now.tree["buckets"], *more])


def commands_of(options: WhatifOptions, question: Question) -> list[Command]:
    """The commands that the options stand for."""
    return options.asked.commands(question.whole, question.cluster, options.source.program)


def held_behind(cluster: Cluster, steps: list[Command], program: Program) -> tuple[JsonObject, list[str]]:
    """What a hold of a change would leave, as JSON and in lines. What holds comes in here: it takes long, and few ask
    for it.
    """
    from ..output.hold_words import hold_lines
    from ..plans.hold import hold_of_change

    hold = hold_of_change(cluster, steps, program)
    return {"hold": hold.told()}, hold_lines(hold)


def work(options: WhatifOptions) -> None:
    """Tells what moves."""
    view = view_of(options.source)
    question = Question(view, options.source.program, options.balance)
    if options.each is not None:
        drill(question, options.each, options.is_json)
        return
    steps = commands_of(options, question)
    found, now = question.result(steps)
    beside = view.beside(now)
    parts, lines = held_behind(question.cluster, steps, options.source.program) if options.is_held else ({}, [])
    if options.picture is not None:
        both = {**now.names, **view.names}
        put(options.picture, flow_picture(pictured(view, now), found["flows"], found["groups"], both))
    if options.is_json:
        put_json("whatif", view.tree["epoch"], **found, **parts, **beside.parts())
    else:
        lines += beside.lines()
        print("\n".join(flow_lines(found, view.names, "\n".join(question.warnings())) + lines))


def add_to(commands: Commands) -> None:
    """The subcommand."""
    own = commands.add_parser("whatif", help="what moves if a change is made", description=__doc__)
    own.usage = usage("[CHANGE]")
    own.add_argument(
        "words",
        metavar=f"{FILES} [CHANGE]",
        nargs="+",
        help=f"{ABOUT_FILES}; behind them a change as JSON, without its base or with it, or a file with one",
    )
    add_change_words(own)
    own.add_argument("--each", metavar="TYPE", help="instead: each bucket of this type out, in turn")
    own.add_argument("--balance", action="store_true", help="the cluster is balanced after the change, as by `plan`")
    own.add_argument(
        "--anyway", action="store_true", help="balance also where Ceph's balancer would wait, as `plan` does"
    )
    own.add_argument("--hold", action="store_true", help="tell also what `hold` of the change would leave")
    add_names(own)
    add_json(own)
    putting(own).add_argument("--picture", metavar="FILE", help="writes beside it which host gives to which, as SVG")
    set_work(own, options_of, work)
