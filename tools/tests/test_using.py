"""docs/USING.md, followed word for word."""
from __future__ import annotations

import os
import shutil
import subprocess
import tempfile
import unittest

from support import TOP, example, program

OURS = ("tools/", "./reshard ")
THEIRS = ("mongoexport", "mongosh", "work=")
PAGES = {"parcels": "parcels.page", "clash": "parcels_clash.page"}


def regions(text: str) -> list[list[str]]:
    """The indented parts of a page, each with its blank lines."""
    result: list[list[str]] = [[]]
    for line in text.split("\n"):
        if line.startswith("    "):
            result[-1].append(line[4:])
        elif line:
            result.append([])
        else:
            result[-1].append("")
    return [region for region in result if any(region)]


class Using(unittest.TestCase):
    """The commands, and what they are said to print."""

    def run_line(self, line: str, work: str) -> str:
        """What a line prints. Where no program is built, the example's page stands for its answer."""
        if line.startswith("./reshard "):
            name = next(name for name in PAGES if f"{name}.json" in line)
            if program() is None:
                shutil.copy(example(PAGES[name]), os.path.join(work, f"{name}.page"))
                return ""
            line = line.replace("./reshard", program(), 1)
        answer = subprocess.run(["sh", "-c", line], cwd=TOP, env={**os.environ, "work": work}, text=True, check=False,
                                stdout=subprocess.PIPE, stderr=subprocess.STDOUT)
        return answer.stdout

    def test_each_command_prints_what_the_page_says(self) -> None:
        with open(os.path.join(TOP, "docs", "USING.md"), encoding="utf-8") as file:
            text = file.read()
        printed, told = "", 0
        with tempfile.TemporaryDirectory() as work:
            for region in regions(text):
                rest = [line for line in region if not line.startswith((*OURS, *THEIRS))]
                for line in region:
                    if line.startswith(OURS):
                        printed = self.run_line(line, work)
                wanted = "\n".join(rest).strip("\n")
                if wanted:
                    told += 1
                    self.assertEqual(printed.rstrip("\n"), wanted)
            for name, page in PAGES.items():
                with open(os.path.join(work, f"{name}.page"), "rb") as made, open(example(page), "rb") as file:
                    self.assertEqual(made.read(), file.read())
        self.assertEqual(told, 4)


if __name__ == "__main__":
    unittest.main()
