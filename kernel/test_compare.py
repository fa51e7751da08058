#!/usr/bin/env -S python3 -B
"""Tests how a comparison reads answers, on what both sides were asked and answered once (recorded.log, and recorded-module.log for the module's
calls): no kernel runs, and no mntgate."""

import argparse
import contextlib
import importlib.machinery
import importlib.util
import io
import os
import re
import tempfile
import unittest
import unittest.mock

import gate_schedules
import histories
import machine
import races
import rules
import schedules


def read_log(name):
    """The lines of a record."""
    with open(f"{os.path.dirname(os.path.realpath(__file__))}/{name}", encoding="utf-8") as record:
        return record.read().splitlines()


LOG = read_log("recorded.log")
CALLS_LOG = read_log("recorded-module.log")


def read_command():
    """kernel/compare as a module."""
    loader = importlib.machinery.SourceFileLoader("compare", f"{os.path.dirname(os.path.realpath(__file__))}/compare")
    command = importlib.util.module_from_spec(importlib.util.spec_from_loader("compare", loader))
    loader.exec_module(command)
    return command


def schedules_of(log):
    """The recorded lines of each schedule."""
    begins = [place for place, line in enumerate(log) if line.startswith("replay> config")]
    return [log[begin:end] for begin, end in zip(begins, [*begins[1:], len(log)])]


class Recorded(schedules.Drawn):
    """A schedule that has the recorded calls."""

    def __init__(self, log):
        super().__init__("")
        self.calls = [line.split(" ")[1:] for line in log if re.match(r"guest> \d (?!look)", line)]

    def next(self):
        """The next recorded call."""
        words = self.calls.pop(0) if self.calls else None
        return words and (int(words[0]), words[1:])

    def next_of_end(self):
        """Nothing: a recorded schedule ends with its last call."""
        return None


class Sides(schedules.Replay):
    """Both sides of a recorded schedule: each answers as it did, where it is asked what it was asked. Itself it is the replay."""

    def __init__(self, log):
        self.log, self.place = log, 0
        self.lines, self.steps, self.nodes, self.failing = [], {}, {}, {}
        self.ask(schedules.CONFIG)

    def answers(self, side, lines):
        """The answers that follow these lines."""
        for line in lines:
            if self.log[self.place] != f"{side}> {line}":
                raise schedules.Unreadable(f"'{line}' was asked, and not '{self.log[self.place]}'")
            self.place += 1
        begin = self.place
        while self.place < len(self.log) and self.log[self.place].startswith(f"{side}< "):
            self.place += 1
        return [line.split("< ", 1)[1] for line in self.log[begin : self.place]]

    def ask(self, *lines):
        """What the replay printed for these lines."""
        self.lines += lines
        return self.answers("replay", lines)


class Guest:
    """The guest's side."""

    def __init__(self, sides):
        self.sides = sides

    def ask(self, line):
        """The recorded answer."""
        return self.sides.answers("guest", [line])[0]


class RecordedCalls(gate_schedules.Drawn):
    """A schedule of the module's calls that has the recorded ones."""

    def __init__(self, log):
        super().__init__("", ())
        self.calls = [line.split(" ")[1:] for line in log if re.match(r"guest> \d (?!look)", line)]

    next, next_of_end = Recorded.next, Recorded.next_of_end


def sides_of_calls(log):
    """Both sides of a recorded schedule of the module's calls, by the rules of its kernel."""
    kernel = rules.TwoHolders if log[0].startswith("# 6.12") else rules.OneHolder

    class CallSides(kernel):
        """The replay, which answers as it did."""

        def __init__(self):
            self.log, self.place, self.lines, self.failing = [line for line in log if not line.startswith("#")], 0, [], {}
            self.calls, self.put_off, self.nested, self.known = {}, set(), {"user": 0, "kernel": 0}, []
            self.ask(gate_schedules.CONFIG)

        answers, ask = Sides.answers, Sides.ask

    return CallSides()


class Calls(unittest.TestCase):
    """What is read of the module's calls."""

    def setUp(self):
        begins = [place for place, line in enumerate(CALLS_LOG) if line.startswith("# ")]
        self.logs = [CALLS_LOG[begin:end] for begin, end in zip(begins, [*begins[1:], len(CALLS_LOG)])]
        gate_schedules.PATIENCE = 0

    def run_recorded(self, log, change=lambda line: line):
        """The answers of a recorded schedule, whose lines of the guest may be changed."""
        sides = sides_of_calls(log)
        sides.log = [f"guest< {change(line.removeprefix('guest< '))}" if line.startswith("guest< ") else line for line in sides.log]
        answers = []
        gate_schedules.run(RecordedCalls(log), sides, Guest(sides), lambda line: line, answers)
        return answers, sides

    def test_recorded_schedules_agree(self):
        told, known = set(), set()
        for log in self.logs:
            answers, sides = self.run_recorded(log)
            self.assertFalse(any(answer.differs() for answer in answers))
            told |= {answer.ours[0] for answer in answers}
            known |= set(sides.known)
        self.assertEqual(told, {"ok", "waits", "refused 11 Again", "refused 16 Busy", "refused 22 Invalid", "refused 30 ReadOnly", "refused hook 5",
                                "refused hook 22"})
        self.assertEqual(known, set(rules.Rule))

    def test_each_wrong_word_differs(self):
        log = self.logs[0]
        for name in ("stage", "user", "mount0.cpu1", "level1.cpu0", "entered2", "block3", "umount"):
            last = max(place for place, line in enumerate(log) if line.startswith("guest< words"))
            count = iter(range(len(log)))
            lines = [place for place, line in enumerate(log) if line.startswith("guest< ")]

            def change(line, last=last, name=name, count=count, lines=lines):
                if lines[next(count)] != last:
                    return line
                words = gate_schedules.read_words(line)
                words[name] += 1
                return " ".join(["words", *(f"{word} {value}" for word, value in words.items() if value)])

            answers, _ = self.run_recorded(log, change)
            self.assertEqual([answer.differs() for answer in answers[-2:]], [False, True], name)

    def test_a_callback_before_a_freeze(self):
        def words(state, entered):
            return {**dict.fromkeys(gate_schedules.WORDS, 0), "state1": state, "entered1": entered}

        self.assertTrue(gate_schedules.ran_before(words(4, 1), words(3, 1)))
        for ours, theirs in ((words(4, 0), words(3, 0)), (words(4, 1), words(2, 1)), (words(3, 1), words(3, 1)), (words(0, 0), words(3, 0))):
            self.assertFalse(gate_schedules.ran_before(ours, theirs))

    def test_parts_that_fail(self):
        for words, part in ((["freeze", "user", "sync", "5"], ["sync", "5"]), (["thaw", "kernel"], []), (["want", "0", "1"], [])):
            self.assertEqual(schedules.part_that_fails(words), part)
        failing = ["remount", "ro", "reconfigure", "22"]
        self.assertEqual(gate_schedules.as_call(failing), ["remount", "ro"])
        self.assertEqual(schedules.by_part("refused 22 Invalid", failing), "refused hook 22")
        self.assertEqual(schedules.by_part("refused 16 Busy", failing), "refused 16 Busy")
        self.assertEqual(schedules.by_part("refused 22 Invalid", ["thaw", "user"]), "refused 22 Invalid")

    def test_words(self):
        self.assertEqual(gate_schedules.read_words("words stage 4 level1.cpu0 -2")["level1.cpu0"], -2)
        for line in ("words stage", "words stages 4", "words stage 4 stage 4", "stage 4"):
            self.assertRaises(schedules.Unreadable, gate_schedules.read_words, line)

    def test_histories(self):
        said = ["1 0 begin want 0 0", "3 1 begin freeze user", "4 0 return ok", "5 2 begin thaw kernel", "6 1 return ok", "7 2 return ok",
                "8 1 begin freeze user", "9 1 return errno 16"]
        lines = iter([*said, "recorded 4"])
        guest = type("Teller", (), {"receive": lambda self, seconds: next(lines)})()
        calls = histories.read_history(guest, 1)
        told = ["0 want 0 0", "1 freeze user", "0 ok", "2 thaw kernel", "1 ok", "2 ok", "1 freeze user", "1 refused 16 Busy"]
        self.assertEqual(histories.as_history(calls, (6, 1, 192)), told)
        told[1], told[5] = "1 retry freeze user", "2 ?"
        self.assertEqual(histories.as_history(calls, (6, 12, 117)), told)
        told[5] = "2 ok"
        self.assertEqual(histories.as_history(calls, (6, 12, 110)), told)
        self.assertRaises(schedules.Unreadable, histories.as_history, calls[:-1], (6, 1, 192))
        lines = iter(["1 0 begins want"])
        self.assertRaises(schedules.Unreadable, histories.read_history, guest, 1)

    def test_the_head_of_a_history(self):
        guest = argparse.Namespace(version=f"Linux version 6.12.117+deb12-amd64 {'(a compiler)' * 20} #1 SMP", processors=4)
        head = histories.head_of(guest, 7)
        self.assertIn("4 processors, seed 7, Linux version 6.12.117+deb12-amd64 ", head[0])
        self.assertEqual(([len(head[0]), *head[1:]]), [256, "config 4 4 3 2 8", "history"])

    def test_verdicts(self):
        options, none = argparse.Namespace(limit=9), "x:6:1: error: no execution has this line"
        said = {"echo possible: 2 calls": histories.Verdict.POSSIBLE, f"echo '{none}' >&2; echo 1 run; exit 1": histories.Verdict.IMPOSSIBLE,
                "echo 'x: more than 9 states' >&2; exit 1": histories.Verdict.UNJUDGED}
        with contextlib.redirect_stdout(io.StringIO()) as printed, tempfile.TemporaryDirectory() as folder:
            path = f"{folder}/a.history"
            for script, verdict in said.items():
                self.assertEqual(histories.judge(options, ["sh", "-c", script], path), verdict)
            self.assertRaises(machine.Failed, histories.judge, options, ["sh", "-c", "exit 2"], path)
        self.assertIn(f"{none} {path}.schedule, whose end is\n    1 run\n", printed.getvalue())

    def test_a_spoiled_history(self):
        lines = ["0 want 0 0", "0 ok", "1 want 1 0", "1 refused 30 ReadOnly", "1 trystart 1 0", "1 refused 11 Again"]
        with tempfile.TemporaryDirectory() as folder:
            path = f"{folder}/a.history"
            with open(path, "w", encoding="utf-8") as file:
                file.writelines(f"{line}\n" for line in lines)
            with open(histories.spoil(path), encoding="utf-8") as file:
                self.assertEqual(file.read().splitlines(), [*lines[:3], "1 ok", *lines[4:]])


class Readings(unittest.TestCase):
    """What is read of answers."""

    def run_recorded(self, log, spoil=lambda line: line):
        """The answers of a recorded schedule."""
        answers, sides = [], Sides(log)
        schedules.run(Recorded(log), sides, Guest(sides), spoil, answers)
        return answers

    def test_recorded_schedules_agree(self):
        told = set()
        for log in schedules_of(LOG):
            answers = self.run_recorded(log)
            self.assertFalse(any(answer.differs() for answer in answers))
            self.assertEqual(len(answers), sum(line.startswith("guest< ") for line in log))
            told |= {answer.ours[0] for answer in answers}
        self.assertEqual(told, {"ok", "waits", "inside", "refused 16 Busy", "refused 22 Invalid", "refused 30 ReadOnly", "refused hook 22"})

    def test_each_wrong_answer_differs(self):
        log = schedules_of(LOG)[0]
        for wrong in range(sum(line.startswith("guest< ") for line in log)):
            count = iter(range(len(log)))
            answers = self.run_recorded(log, lambda line: f"{line[0]} errno 5 {line[-11:]}" if next(count) == wrong else line)
            self.assertEqual([answer.differs() for answer in answers], [False] * wrong + [True])

    def test_a_wrong_flag_differs(self):
        answers = self.run_recorded(schedules_of(LOG)[0], lambda line: line[:-2] + "ro")
        self.assertTrue(answers[-1].differs())

    def test_a_schedule_that_differs_is_one_for_replay(self):
        log = schedules_of(LOG)[0]
        answers, sides = [], Sides(log)
        schedules.run(Recorded(log), sides, Guest(sides), lambda line: line[:-2] + "ro", answers)
        told = schedules.as_schedule(sides, answers[-1])
        self.assertEqual(told[0], schedules.CONFIG)
        self.assertTrue(told[-1].startswith("# "))
        self.assertEqual([line for line in log if line == f"replay> {told[-3]}"][:1], [f"replay> {told[-3]}"])

    def test_an_end_that_fails_hides_no_difference(self):
        guest, command = unittest.mock.Mock(), read_command()
        guest.end.side_effect = machine.Failed("the guest's end")
        with contextlib.redirect_stderr(io.StringIO()) as told:
            command.end_guest(guest, 1)
        self.assertIn("the guest's end", told.getvalue())
        self.assertRaises(machine.Failed, command.end_guest, guest, 0)

    def test_guests_that_are_made_at_once(self):
        with tempfile.TemporaryDirectory() as folder, unittest.mock.patch("machine.OUT", f"{folder}/out"):
            self.assertNotEqual(machine.own_folder(), machine.own_folder())

    def test_what_is_no_answer(self):
        for line in ("", "0 ok", "9 ok rw:rw,rw,rw x", "0 errno rw:rw,rw,rw", "0 ok rw:rw,rw"):
            self.assertRaises(schedules.Unreadable, schedules.read_kernel, line)
        self.assertRaises(schedules.Unreadable, schedules.read_model, ["model stage 5x"])

    def test_races(self):
        calls = ["freeze", "touch.0", "remount.ro"]
        seen, rounds = races.read_race(["seen 2 0 30 0", "seen 3 0 w 16", "raced 5"], calls)
        self.assertEqual(rounds, 5)
        self.assertEqual(seen, {"0 ok; 1 refused 30 ReadOnly; 1 refused 35 Order; 2 ok": 2, "0 ok; 1 waits; 2 refused 16 Busy": 3})
        self.assertRaises(schedules.Unreadable, races.read_race, ["seen 2 0 30 0", "raced 5"], calls)
        self.assertRaises(schedules.Unreadable, races.read_race, ["seen 5 0 30 0"], calls)
        self.assertRaises(schedules.Unreadable, races.read_race, ["seen 5 0 30", "raced 5"], calls)

    def test_outcomes_that_are_not_allowed(self):
        allowed = races.read_outcomes("9 states, 2 outcomes\n0 ok\n0 waits\n")
        race = type("Race", (), {"name": "a"})
        lines, others = races.table(race, {"0 ok": 4, "0 refused 16 Busy": 1}, allowed)
        self.assertEqual((others, lines[0].split(), lines[1].split()[0]), (1, ["4", "0", "ok"], "never"))
        self.assertIn("NOT AMONG", lines[2])
        self.assertRaises(schedules.Unreadable, races.read_outcomes, "9 states, 3 outcomes\n0 ok\n0 waits\n")


if __name__ == "__main__":
    unittest.main()
