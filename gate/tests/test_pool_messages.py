"""Tests of gate/pool_messages.py."""

import os
import subprocess
import sys
import tempfile
import unittest
from pathlib import Path

from gate import pool_messages
from gate.pool_messages import Messages, Program, Started
from gate.process import Failed

# A program instead of a sender, whose last argument is the number of messages, or a receiver.
SLEEPS = [sys.executable, "-c", "import time; time.sleep(60)"]
FAILS = [sys.executable, "-c", "raise SystemExit(1)"]
PRINTS = [sys.executable, "-c", "print('7 0\\n7', end='')"]


class Faults(unittest.TestCase):
    """Faults in the texts that receivers have printed."""

    def test_all_came(self) -> None:
        printed = ["7 0\n8 0\n7 1\n", "", "8 1\n"]
        self.assertEqual(pool_messages.faults(printed, {7: 2, 8: None}), [])

    def test_nobody_sent(self) -> None:
        for line in ("9 0", "7", "7 x", "7 -1", " 0", ""):
            with self.subTest(line):
                found = pool_messages.faults([f"{line}\n"], {7: None})
                self.assertEqual(found, [f"a message that nobody sent: {line}"])

    def test_missing(self) -> None:
        found = pool_messages.faults(["7 0\n"], {7: 2})
        self.assertEqual(found, ["process 7: 1 of 2 messages are missing, or there are others"])

    def test_missing_of_a_killed_sender(self) -> None:
        found = pool_messages.faults(["7 0\n7 2\n"], {7: None})
        self.assertEqual(found, ["process 7: 1 of 2 messages are missing, or there are others"])

    def test_more_than_were_sent(self) -> None:
        found = pool_messages.faults(["7 0\n7 1\n"], {7: 1})
        self.assertEqual(found, ["process 7: 0 of 1 messages are missing, or there are others"])

    def test_again(self) -> None:
        printed = ["7 0\n", "7 0\n", "7 0\n7 1\n"]
        self.assertEqual(pool_messages.faults(printed, {7: 2}), [])

    def test_again_after_done(self) -> None:
        for printed in (
            ["7 0\n7 0\n7 1\n"],
            ["7 0\n7 1\n", "7 0\n7 1\n"],
            ["7 0\n7 1\n", "7 0\n7"],
        ):
            with self.subTest(printed):
                found = pool_messages.faults(printed, {7: 2})
                self.assertEqual(found, ["a message came again after `done`: 7 0"])

    def test_late(self) -> None:
        self.assertEqual(pool_messages.late([(7, 0), (8, 5), (7, 3), (7, 1), (8, 6), (7, 2)]), 2)
        self.assertEqual(pool_messages.late([(7, 1), (7, 1), (8, 0), (7, 2)]), 0)

    def test_late_of_killed_receivers(self) -> None:
        printed = ["7 1\n7 0\n", "7 3\n7 2\n"]
        self.assertEqual(pool_messages.faults(printed, {7: 4}), [])

    def test_out_of_order(self) -> None:
        printed = ["7 2\n7 1\n7 0\n7 3\n"]
        found = pool_messages.faults(printed, {7: 4})
        self.assertEqual(found, ["2 messages came late, to 1 receivers"])

    def test_torn_at_the_end_and_came_again(self) -> None:
        for torn in ("7", "7 ", "7 1", "7 12"):
            with self.subTest(torn):
                printed = [f"7 0\n{torn}", "".join(f"7 {number}\n" for number in range(1, 13))]
                self.assertEqual(pool_messages.faults(printed, {7: 13}), [])
                self.assertEqual(pool_messages.faults(printed, {7: None}), [])

    def test_torn_at_the_end_and_never_came(self) -> None:
        for torn in ("7", "7 ", "7 1"):
            with self.subTest(torn):
                found = pool_messages.faults([f"7 0\n{torn}", "7 2\n"], {7: 3})
                wanted = "process 7: 1 of 3 messages are missing, or there are others"
                self.assertEqual(found, [wanted])

    def test_torn_in_the_middle(self) -> None:
        found = pool_messages.faults(["7 0\n7 17 1\n7 2\n", "7 1\n"], {7: 3})
        self.assertEqual(found, ["a message that nobody sent: 7 17 1"])


class Processes(unittest.TestCase):
    """Processes that are started and killed, of programs that do nothing."""

    def setUp(self) -> None:
        self.printed = Path(self.enterContext(tempfile.TemporaryDirectory()))

    def messages(self, sends: list[str], receives: list[str]) -> Messages:
        program = Program(sends, receives)
        messages = Messages([program], Path("file"), Path("bb-pool"), self.printed)
        self.addCleanup(messages.kill_all)
        return messages

    def test_killed_ones(self) -> None:
        messages = self.messages(SLEEPS, SLEEPS)
        sender = messages.start(messages.programs[0], 5)
        receiver = messages.start(messages.programs[0], None)
        self.assertEqual(messages.senders, {sender.process.pid: None})
        self.assertEqual(sender.process.args, [*SLEEPS, "file", "5"])
        self.assertEqual(receiver.process.args, [*SLEEPS, "file"])
        messages.kill_one(sender)
        messages.kill_one(receiver)
        self.assertEqual((messages.alive, messages.started), ([], [sender, receiver]))
        self.assertEqual(messages.texts(sends=True) + messages.texts(sends=False), ["", ""])

    def test_a_killed_sender_keeps_its_id(self) -> None:
        messages = self.messages(SLEEPS, SLEEPS)
        sender = messages.start(messages.programs[0], 5)
        messages.kill_one(sender)
        os.kill(sender.process.pid, 0)
        messages.kill_all()
        with self.assertRaises(ProcessLookupError):
            os.kill(sender.process.pid, 0)

    def test_an_end_is_a_fault(self) -> None:
        for sends in (True, False):
            with self.subTest(sends):
                process = subprocess.Popen(FAILS, stdin=subprocess.DEVNULL)
                os.waitid(os.P_PID, process.pid, os.WEXITED | os.WNOWAIT)
                with self.assertRaisesRegex(Failed, "ended by itself with status 1"):
                    Started(process, sends, Path("output")).kill()

    def test_a_last_sender_fails(self) -> None:
        messages = self.messages(FAILS, SLEEPS)
        with self.assertRaisesRegex(Failed, "ended with status 1"):
            messages.finish()

    def test_each_prints_to_a_file_of_its_own(self) -> None:
        messages = self.messages(PRINTS, PRINTS)
        for count in (5, None, None):
            messages.start(messages.programs[0], count).process.wait()
        self.assertEqual(messages.texts(sends=True), ["7 0\n7"])
        self.assertEqual(messages.texts(sends=False), ["7 0\n7", "7 0\n7"])


if __name__ == "__main__":
    unittest.main()
