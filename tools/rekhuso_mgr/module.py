"""rekhuso: what the carrier of plans (`rekhuso carry`) says of itself, and what a person says to it, in ceph-mgr.

The carrier is a process of its own beside the cluster; it keeps its state and its plan in the monitors, below
`rekhuso/`. This module reads these keys, writes the one by which a person speaks, and warns. It plans nothing, gives
nothing, and so never holds the manager up. It is Python 3.6 without other packages.
"""

import errno
import hashlib
import json
import threading
import time

from mgr_module import CLIReadCommand, CLIWriteCommand, MgrModule, Option

# After how many seconds a carrier that says nothing is told, and how many of them lie between two looks.
SILENT, INTERVAL = 300, 20
SAYINGS = {"on": "on", "resume": "on", "pause": "paused", "off": "off"}
NOT_HERE = "no carrier was here yet: rekhuso carry CONF is one, beside the cluster"
# The warnings of states, and what each says.
CHECKS = {
    "stopped": ("REKHUSO_STOPPED", "rekhuso gives no command until a person says so: "),
    "failed": ("REKHUSO_FAILED", "rekhuso cannot do its work: "),
    "waits": ("REKHUSO_WAITS", "rekhuso waits for more than an hour: "),
}


def checks_of(state, wish, now):
    """The warnings of a state, by their names."""
    found = {}
    if not isinstance(state, dict):
        return found
    words = str(state.get("words", ""))
    if state.get("warning") and state.get("state") in CHECKS:
        name, about = CHECKS[state["state"]]
        found[name] = check(about + words, ["since %s" % time.ctime(state.get("since", 0)), "ceph rekhuso status"])
    seconds = now - state.get("at", 0)
    if seconds > SILENT and wish != "off":
        told = "the carrier of rekhuso has said nothing for %d seconds" % seconds
        found["REKHUSO_STALE"] = check(told, ["its last words: %s: %s" % (state.get("state"), words)])
    return found


def check(summary, detail):
    """A warning as the manager has it."""
    return {"severity": "warning", "summary": summary[:300], "count": 1, "detail": detail}


def part_done(state):
    """Which part of its plan a carrier has done, and in words; None where it carries none."""
    own = state.get("progress") if isinstance(state, dict) and state.get("plan") else None
    if not own:
        return None
    done, rest = own["done"], own["under_way"]["groups"] + own["left"]["groups"]
    return done / float(max(done + rest, 1)), "rekhuso evens the cluster (%d of %d groups)" % (done, done + rest)


class Module(MgrModule):
    """The module."""

    NOTIFY_TYPES = []
    MODULE_OPTIONS = [
        Option("interval", type="secs", default=INTERVAL, desc="seconds between two looks at the carrier", runtime=True)
    ]

    def __init__(self, *args, **kwargs):
        """Has looked at nothing yet."""
        super(Module, self).__init__(*args, **kwargs)
        self.event, self.run, self.is_shown = threading.Event(), True, False

    # Keys

    def key(self, name):
        """The value of a key below `rekhuso/`; None where there is none."""
        status, out, _ = self.mon_command({"prefix": "config-key get", "key": "rekhuso/" + name})
        return out if status == 0 else None

    def value(self, name):
        """The same as JSON; None where it is none."""
        try:
            return json.loads(self.key(name) or "null")
        except ValueError:
            return None

    def plan(self):
        """The plan that is kept, or was carried last; None where there is none, or it is torn."""
        head = self.value("plan")
        if not isinstance(head, dict) or not head.get("chunks"):
            return None
        keys = ["plan.%s.%d" % (head["slot"], number) for number in range(head["chunks"])]
        text = "".join(self.key(key) or "" for key in keys)
        return json.loads(text) if hashlib.sha256(text.encode()).hexdigest() == head["sum"] else None

    def say(self, word):
        """Says something to the carrier."""
        told = json.dumps({"wish": SAYINGS[word], "number": int(time.time() * 1e9)})
        status, _, err = self.mon_command({"prefix": "config-key set", "key": "rekhuso/wish", "val": told})
        self.event.set()
        return status, "" if status else "the carrier takes it at its next look", err

    # The loop

    def serve(self):
        """Looks at the carrier from time to time."""
        while self.run:
            try:
                state, wish = self.value("state"), (self.value("wish") or {}).get("wish", "on")
                self.set_health_checks(checks_of(state, wish, time.time()))
                self.show(part_done(state))
            except Exception as fault:  # Whatever comes, the manager goes on.
                self.log.error("rekhuso: %s", fault)
            self.event.wait(self.get_module_option("interval"))
            self.event.clear()

    def show(self, part):
        """Shows how far the plan is as a progress."""
        try:
            if part is not None:
                self.remote("progress", "update", "rekhuso", part[1], part[0], ["rekhuso"], True)
            elif self.is_shown:
                self.remote("progress", "complete", "rekhuso")
        except Exception as fault:  # Another form in another release, or the module is off.
            self.log.debug("progress: %s", fault)
        self.is_shown = part is not None

    def shutdown(self):
        """Ends the loop."""
        self.run = False
        self.event.set()

    # Commands

    @CLIReadCommand("rekhuso status")
    def status_(self):
        """What the carrier of plans does, and why it gives nothing"""
        state = self.value("state")
        if not isinstance(state, dict):
            return -errno.ENOENT, "", NOT_HERE
        left_out = ("quiet", "quiet_at", "differs", "differs_at", "vain", "word", "version")
        told = {key: own for key, own in state.items() if key not in left_out}
        told["silent"] = int(time.time() - state.get("at", 0))
        return 0, json.dumps(told, indent=1, sort_keys=True), ""

    @CLIReadCommand("rekhuso next")
    def next_(self):
        """The first commands that come next, as far as the carrier has judged them"""
        return 0, "\n".join((self.value("state") or {}).get("coming", [])), ""

    @CLIReadCommand("rekhuso undo")
    def undo_(self):
        """The commands that take the plan back: pause or off comes first"""
        plan, wish = self.plan(), (self.value("wish") or {}).get("wish", "on")
        if plan is None:
            return -errno.ENOENT, "", "no plan is kept"
        if wish == "on" and (self.value("state") or {}).get("state") != "stopped":
            return -errno.EBUSY, "", "the carrier would give it again: ceph rekhuso pause comes first"
        return 0, "\n".join(plan.get("undo", [])), ""

    @CLIWriteCommand("rekhuso on")
    def on_(self):
        """Carry plans; also where the carrier has stopped by itself"""
        return self.say("on")

    @CLIWriteCommand("rekhuso resume")
    def resume_(self):
        """The same as on"""
        return self.say("resume")

    @CLIWriteCommand("rekhuso pause")
    def pause_(self):
        """Give nothing, and keep the plan"""
        return self.say("pause")

    @CLIWriteCommand("rekhuso off")
    def off_(self):
        """Give nothing, and drop the plan"""
        return self.say("off")
