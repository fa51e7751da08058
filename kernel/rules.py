"""The rules by which a kernel since 6.6 does otherwise than the gates, and a replay by them. Each has its row in docs/kernel.md, in "Rules of 6.12"."""

import enum

import gate_schedules


class Rule(enum.Enum):
    """A rule: its name, and where it stands in fs/super.c of Debian's 6.12.117-1~deb12u1."""

    FREEZE_WAITS = ("freeze-waits", "freeze_super 2088, wait_for_partially_frozen 1952")
    FREEZES_NEST = ("freezes-nest", "may_freeze 1997, freeze_inc 1973, freeze_dec 1985")
    THAW_LEAVES_A_FREEZE = ("thaw-leaves-a-freeze", "thaw_super_locked 2173, freeze_dec 1985")

    def __str__(self):
        return f"{self.value[0]} ({self.value[1]})"


class OneHolder(gate_schedules.Replay):
    """A kernel before 6.6, by no rule: one freeze at a time, which is user space's here."""

    HOLDERS = ("user",)


class TwoHolders(gate_schedules.Replay):
    """A kernel like 6.12, by the gates and the rules:

    - freeze-waits: a freeze that finds another one under way waits until that is whole or gone, and then begins anew. The gates' is Busy.
    - freezes-nest: a holder's freezes that may nest ('user+') are counted, and each thaw of it but the last only counts down. The gates' second
      freeze of a holder is Busy.
    - thaw-leaves-a-freeze: a thaw behind which a freeze still stands is Ok, whether or not it has taken one away. The gates' is Invalid if its
      holder has none. Before 6.12.111 it is Invalid, whether or not.

    `known` has the rules in the order in which they were met.
    """

    HOLDERS = ("user", "kernel", "user+", "kernel+")
    FROZEN_STILL = "ok"

    def __init__(self, program, log):
        super().__init__(program, log)
        self.calls = {}
        self.put_off = set()
        self.nested = {"user": 0, "kernel": 0}
        self.known = []

    def words(self):
        """The words; of the holders, how many freezes each has."""
        words = super().words()
        return {**words, **{holder: words[holder] + nested for holder, nested in self.nested.items()}}

    def do(self, task, words):
        """Does a call by these rules."""
        if words[0] != "look":
            self.calls[task] = words
        call = self.calls[task]
        if call[0] == "freeze":
            return self.freeze(task, words, call)
        return self.thaw(task, words, call) if call[0] == "thaw" else super().do(task, words)

    def freeze(self, task, words, call):
        """A freeze, which the gates are asked for once none is under way."""
        now = self.words()
        begun = words[0] == "look" and task not in self.put_off
        if not begun and now["stage"] in (1, 2, 3) and not now["umount"]:
            self.put_off.add(task)
            return "waits"
        if task in self.put_off:
            self.put_off.remove(task)
            self.known.append(Rule.FREEZE_WAITS)
            words = call
        holder = call[1].rstrip("+")
        answer = super().do(task, words if words[0] == "look" else ["freeze", holder, *call[2:]])
        if answer != "refused 16 Busy" or not call[1].endswith("+"):
            return answer
        self.nested[holder] += 1
        self.known.append(Rule.FREEZES_NEST)
        return "ok"

    def thaw(self, task, words, call):
        """A thaw; the gates aren't asked for one that only counts down."""
        now, holder = self.words(), call[1]
        if self.nested[holder]:
            self.nested[holder] -= 1
            self.known.append(Rule.FREEZES_NEST)
            answer = "ok"
        else:
            answer = super().do(task, words)
        stands = now["user"] + now["kernel"] - (now[holder] > 0)
        if now["stage"] != 4 or not stands or answer == self.FROZEN_STILL:
            return answer
        self.known.append(Rule.THAW_LEAVES_A_FREEZE)
        return self.FROZEN_STILL


class TwoHoldersBefore111(TwoHolders):
    """6.12 before 6.12.111."""

    FROZEN_STILL = "refused 22 Invalid"


def replay_for(release, program, log):
    """The replay for a kernel of this release."""
    if release < (6, 6):
        return OneHolder(program, log)
    return (TwoHolders if release >= (6, 12, 111) else TwoHoldersBefore111)(program, log)
