"""Tests of the day of a version, in gate/versions.py."""

import unittest
from datetime import date

from gate import versions
from gate.process import Failed

HEADER = {versions.HEADER: '#define BB_VERSION "1.2.3"\n'}


class Days(unittest.TestCase):
    """The day of the header's version, in the headings of CHANGELOG.md."""

    def test_the_day_of_the_version(self) -> None:
        changes = "# Changes\n\n## 1.2.4 (2001-02-05)\n\n## 1.2.3 (2001-02-03)\n\n"
        found = versions.date_of({**HEADER, versions.CHANGES: changes})
        self.assertEqual(found, date(2001, 2, 3))

    def test_no_day(self) -> None:
        for heading in ("## 1.2.3\n", "## 1.2.3 (commit 0123abcd)\n", "## 1x2.3 (2001-02-03)\n"):
            with self.subTest(heading), self.assertRaisesRegex(Failed, "1.2.3 .YEAR"):
                versions.date_of({**HEADER, versions.CHANGES: heading})


if __name__ == "__main__":
    unittest.main()
