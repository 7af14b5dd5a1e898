"""Tests of gate/root_messages.py, with programs that share no pool."""

import io
import os
import unittest
from contextlib import chdir, redirect_stdout
from unittest import mock

from gate import pool_messages, root_messages
from gate.crates import TOP
from gate.process import Failed
from gate.temporary import temporary_folder
from gate.tests.places import write

# A sender, whose arguments are the file and how many messages it sends: none until it is killed, or
# those that are the last ones.
SENDS = f"""#!/bin/sh
[ "$2" = {pool_messages.LAST} ] || exec sleep 60
seq 0 $(($2 - 1)) | sed "s/^/$$ /" > "$1.sent"
mv "$1.sent" "$1"
"""
# A receiver: the one that can make a folder prints the messages, and then removes them.
RECEIVES = """#!/bin/sh
until [ -e "$1" ] && mkdir "$1.taken" 2> /dev/null; do sleep 0.01; done
cat "$1"
rm "$1"
exec sleep 60
"""
LOSES = RECEIVES.replace("cat", "sed 1d")
ENDS = "#!/bin/sh\nexit 1\n"
SLEEPS = "#!/bin/sh\nexec sleep 60\n"
# `bb-pool`, which shows a message if there are messages.
SHOWS = """#!/bin/sh
for file; do :; done
echo 'buckets: 0 held (0 of them by dead parties), 0 detached, 0 wrong'
echo "messages: $([ -e "$file" ] && echo 1 || echo 0)"
"""
# An interpreter, which sends if it is given a number.
PYTHON = '#!/bin/sh\nshift\n[ $# = 2 ] && exec ./producer "$@"\nexec ./consumer "$@"\n'


class Directions(unittest.TestCase):
    """Programs that send and receive in both directions, and faults of theirs."""

    def setUp(self) -> None:
        self.work = self.enterContext(temporary_folder())
        self.enterContext(chdir(self.work))
        path = f"{self.work}:{os.environ['PATH']}"
        self.enterContext(mock.patch.dict(os.environ, {"PATH": path}))
        self.enterContext(mock.patch.multiple(root_messages, KILLS=6, PAUSE=0.01))

    def run_programs(self, receives: str) -> str:
        """Runs the programs in both directions, with a receiver. Returns what is printed."""
        programs = {"producer": SENDS, "consumer": receives, "bb-pool": SHOWS, "python": PYTHON}
        write(self.work, programs)
        printed = io.StringIO()
        with redirect_stdout(printed):
            root_messages.main(["./python"])
        return printed.getvalue()

    def test_all_messages_are_received(self) -> None:
        said = f"{pool_messages.LAST} messages were received, with 6 kills\n"
        ways = ("Python to C", "C to Python")
        expected = "".join(f"Debian packages: from {way}, {said}" for way in ways)
        self.assertEqual(self.run_programs(RECEIVES), expected)

    def test_a_message_is_lost(self) -> None:
        with self.assertRaisesRegex(Failed, f"1 of {pool_messages.LAST} messages are missing"):
            self.run_programs(LOSES)

    def test_nobody_receives(self) -> None:
        with mock.patch.object(pool_messages, "LONGEST", 3):
            with self.assertRaisesRegex(Failed, "a message is never received"):
                self.run_programs(SLEEPS)

    def test_a_receiver_ends(self) -> None:
        with self.assertRaisesRegex(Failed, "has ended by itself with status 1"):
            self.run_programs(ENDS)

    def test_no_interpreter_is_named(self) -> None:
        with self.assertRaisesRegex(Failed, "usage: "):
            root_messages.main([])

    def test_the_example_is_where_the_root_has_it(self) -> None:
        programs = root_messages.directions("python")
        self.assertEqual(programs["Python to C"].sends, programs["C to Python"].receives)
        self.assertTrue((TOP / root_messages.EXAMPLE).exists())


if __name__ == "__main__":
    unittest.main()
