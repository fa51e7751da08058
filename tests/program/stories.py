"""Random schedules, in which each task goes through one story after the other."""

# What a task does, line by line, until it takes up something else. A capital letter stands for a
# number: T for the task's own, X for any task's, M for a mount's, C for a processor's, L for a
# level's, N for a node's, B for some blocks, and E for the code of a hook.
STORIES = [
    "T want M C\nT run\nwords\nT drop M C\nT run\n",
    "T trywant M C\nT step\nT step\nT run\nX drop M C\nX run\n",
    "T want M C\nT step\nT step\nT step\nT step\nT step\nmodel\nT drop M C\nT step\n",
    (
        "T wantwrite M C\nT run\nT create 0 file\nT run\nT grow N B\nT run\nT dropwrite M C\nT"
        " run\ntree\n"
    ),
    (
        "T wantwrite M C\nT step\nT run\nT create N dir\nT step\nT step\nT run\nT move N N\nT"
        " run\nT dropwrite M C\nT run\nmodel\n"
    ),
    (
        "T wantwrite M C\nT run\nT grow N B\nT step\nT step\nX remove N\nX run\nT run\nT dropwrite"
        " M C\nT run\n"
    ),
    (
        "T wantwrite M C\nT run\nT remove N\nT run\nT create 0 file\nT run\ntree\nT dropwrite M"
        " C\nT run\n"
    ),
    (
        "T want M C\nT run\nT start 2 C\nT run\nT fault N\nT step\nT step\nT end 2 C\nT run\nT drop"
        " M C\nT run\ntree\n"
    ),
    (
        "T want M C\nT run\nT start 3 C\nT run\nT flush N\nT step\nT run\nT end 3 C\nT run\nT drop"
        " M C\nT run\n"
    ),
    "T start L C\nT step\nT step\nT step\nT step\nT run\nT end L C\nT run\n",
    "T trystart L C\nT run\nmodel\nT end L C\nT run\n",
    (
        "T change M ro\nT step\nT step\nT step\nT step\nT run\nX want M C\nX run\nT change M rw\nT"
        " run\n"
    ),
    "T trychange M ro\nT run\nT trywant M C\nT run\nT trychange M rw\nT run\n",
    (
        "T remount ro\nT step\nT step\nT step\nT step\nT run\nX wantwrite M C\nX run\nT remount"
        " rw\nT run\n"
    ),
    (
        "T remount ro\nT run reconfigure E\nT remount ro\nT run\nT remount rw\nT step\nT step\nT"
        " step\nT step E\nT remount rw\nT run\n"
    ),
    (
        "T freeze\nT run\nwords\nT snapshot\nT run\nX trysnapshot\nX run\nT thaw\nT run\nT callback"
        " L\nT run\n"
    ),
    (
        "T freeze\nT step\nT step\nT step\nT step\nT step\nT run\nX start L C\nX run\nT thaw\nT"
        " step\nT step\nT run\nX run\n"
    ),
    (
        "T freeze\nT run\nT snapshot\nT step\nT step\nT step\nT run\nT thaw\nT run\nT callback 1\nT"
        " step\nT run\n"
    ),
    "T freeze\nT run sync E\nwords\nT callback L\nT run\n",
    "T freeze\nT run freeze E\nmodel\nT callback L\nT step E\nT run\n",
    "T freeze\nT run\nT thaw\nT run unfreeze E\nX thaw\nX run\nwords\n",
    (
        "X start L C\nX run\nT freeze\nT run\nT run wait 110\nwords\nX end L C\nX run\nT callback"
        " L\nT run\nmodel\n"
    ),
    (
        "X wantwrite M C\nX run\nT freeze kernel\nT run\nT run wait 110\nT step\nT step E\nT step"
        " E\nT step\nT run\nwords\nX dropwrite M C\nX run\n"
    ),
    (
        "T freeze\nT run wait 110\nT run wait 110\nT run wait 110\nX freeze\nX run\nT run\nX run\nT"
        " thaw\nT run\nmodel\n"
    ),
    "T remount ro\nT run\nT freeze\nT run\nT snapshot\nT run\nT thaw\nT run\nT remount rw\nT run\n",
    (
        "T freeze kernel\nT run\nX freeze user\nX step\nX step\nX run\nmodel\nT thaw kernel\nT"
        " run\nX thaw user\nX run\nwords\n"
    ),
    (
        "T freeze user\nT run\nT freeze kernel\nT run\nwords\nmodel\nT thaw user\nT step\nT step\nT"
        " run\nX thaw kernel\nX run unfreeze E\nmodel\nX thaw kernel\nX run\n"
    ),
    (
        "T wantwrite M C\nT run\nT create 0 file\nT run\nT create 1 dir\nT run\nT open N\nT step\nT"
        " step\nT run\nmodel\nT close N C\nT step\nT run\nT dropwrite M C\nT run\n"
    ),
    (
        "T wantwrite M C\nT run\nT create 0 file\nT run\nT grow 1 B\nT run\nT open 1\nT run\nT move"
        " 1 1\nT run\nT remove 1\nT step\nT step\nT step\nT step\nT run\nwords\nmodel\nT dropwrite"
        " M C\nT run\nT tryclose 1 C\nT step\nT step\nT step\nT step\nT step\nT step\nT step\nT"
        " step\nT step\nT step\nT run\nT close 1 C\nT run\ntree\n"
    ),
    (
        "T open 1\nT run\nX open 1\nX step\nX wantwrite M C\nX run\nX remove 1\nX run\nX dropwrite"
        " M C\nX run\nmodel\nT remount ro\nT step\nT step\nT step\nT step\nT step\nT run\nT close 1"
        " C\nT run\nT remount rw\nT run\n"
    ),
    (
        "T open 1\nT run\nT open 1\nT freeze\nT run\nX tryclose 1 C\nX run\nT close 1 C\nT step\nT"
        " step\nT step\nT run\nX thaw\nX run\nT run\nX run\nwords\n"
    ),
    "X open N\nX run\nX close N C\nX step\nX step\nX tryclose N C\nX run\n",
    "# a comment\n\nT run\nwords\ntree\nmodel\n",
    (
        "T trywant X N\nT start N M\nT create B file\nT grow E B\nT run\nT move C E\nT wantwrite E"
        " M\nT callback C\nT step\n"
    ),
]

# What the texts of all schedules have to have, so that they are worth replaying.
REACHED = [
    " grant mount ",
    " grant level ",
    " return mount ",
    " pass 1\n",
    "\nstage 4\n",
    " stage 1 stage 1\n",
    "\nholders 3\n",
    "\nholder kernel\nholder user\n",
    " ok used ",
    " ok ran\n",
    " ok none\n",
    " ok node ",
    " waiting\n",
    " idle\n",
    " dirty\n",
    " refused hook ",
    " refused hook 110\n",
    " refused 2 NoEntry\n",
    " refused 11 Again\n",
    " refused 16 Busy\n",
    " refused 20 NotDir\n",
    " refused 21 IsDir\n",
    " refused 22 Invalid\n",
    " refused 28 NoSpace\n",
    " refused 30 ReadOnly\n",
    " refused 35 Order\n",
    "\nmount0.flags 1\n",
    " open 1\n",
    "\ntask 1 open 1\n",
    " close 1\n",
    "\nremoved 1\n",
    " clean removed\n",
    " add removed 0 1\n",
    " sub removed 1 0\n",
    " load removed 1 1\n",
    " refused 24 TooMany\n",
]

# How many lines a schedule has after its configuration.
LENGTH = 120


class Dice:
    """Numbers that are the same for the same seed: a linear congruential generator of 64 bits, of
    which the upper half is used."""

    def __init__(self, seed):
        self.state = seed

    def between(self, first, last):
        """A number from the first up to the last."""
        self.state = (self.state * 6_364_136_223_846_793_005 + 1_442_695_040_888_963_407) % 2**64
        return first + (self.state >> 33) % (last - first + 1)

    def about(self, first, last):
        """The same; now and then one that is out of range, which may be more than a byte."""
        beyond = {0: last + 1, 1: 300}.get(self.between(0, 59))
        return self.between(first, last) if beyond is None else beyond


def number_for(letter, task, sizes, dice):
    """The number for which a letter of a story stands, or the letter, where it stands for
    itself."""
    tasks, cpus, mounts, nodes = sizes
    match letter:
        case "T":
            return task
        case "X":
            return dice.between(0, tasks - 1)
        case "B":
            return dice.between(0, 5)
        case "E":
            return dice.between(1, 65_535)
        case "M":
            return dice.about(0, mounts - 1)
        case "C":
            return dice.about(0, cpus - 1)
        case "N":
            return dice.about(0, nodes - 1)
        case "L":
            return dice.about(1, 3)
    return letter


def random_schedule(seed):
    """A schedule in which each task goes through one story after the other, and which task comes
    next is left to the dice: 2 to 4 tasks, 1 to 3 processors, 1 to 2 mounts, and 2 to 5 nodes."""
    dice = Dice(seed)
    sizes = [dice.between(first, last) for first, last in ((2, 4), (1, 3), (1, 2), (2, 5))]
    lines = [" ".join(map(str, ["config", *sizes, dice.between(0, 12)]))]
    left = [[] for _ in range(sizes[0])]
    for _ in range(LENGTH):
        task = dice.between(0, sizes[0] - 1)
        if not left[task]:
            left[task] = STORIES[dice.between(0, len(STORIES) - 1)].splitlines()
        lines.append(
            "".join(str(number_for(letter, task, sizes, dice)) for letter in left[task].pop(0))
        )
    return "".join(f"{line}\n" for line in lines).encode()
