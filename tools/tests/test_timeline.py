"""What a picture shows, and that nothing on it overlaps."""
from __future__ import annotations

import os
import re
import tempfile
import unittest
import xml.dom.minidom
from dataclasses import dataclass

from pages import PageMaker, opening, whole_run
from support import example, module, run

from cluster import Page, page_of, read_page
from story import Level, story_of

timeline = module("timeline")
TEXT = re.compile(r'<text x="([\d.]+)" y="([\d.]+)" font-size="(\d+)" text-anchor="(\w+)"[^>]*>([^<]*)<')
SIGN = re.compile(r'<path d="M([\d.]+) ([\d.]+)(?:h([\d.]+)|l([\d.]+) )')
CIRCLE = re.compile(r'<circle cx="([\d.]+)" cy="([\d.]+)" r="([\d.]+)"')


@dataclass(frozen=True)
class Box:
    """The place that a text or a sign takes."""

    left: float
    right: float
    top: float
    bottom: float
    what: str

    def touches(self, other: Box) -> bool:
        """Whether two places have a point in common."""
        return (self.left < other.right and other.left < self.right
                and self.top < other.bottom and other.top < self.bottom)


def boxes(svg: str) -> list[Box]:
    """The places of all texts and signs."""
    result = []
    for x, y, size, anchor, text in TEXT.findall(svg):
        width = timeline.text_width(text, int(size))
        left = float(x) - {"start": 0, "middle": width / 2, "end": width}[anchor]
        result.append(Box(left, left + width, float(y) - int(size) * 0.8, float(y) + int(size) * 0.2, text))
    for x, y, width, slope in SIGN.findall(svg):
        size = float(width or slope)
        result.append(Box(float(x) - 0.5, float(x) + size + 0.5, float(y), float(y) + size, "sign"))
    for x, y, half in CIRCLE.findall(svg):
        left, top = float(x) - float(half), float(y) - float(half)
        result.append(Box(left, left + 2 * float(half), top, top + 2 * float(half), "circle"))
    return result


def picture(page: Page) -> str:
    """The picture of a page."""
    return timeline.picture(story_of(page), page.end)


class Pictures(unittest.TestCase):
    """Whole pictures."""

    def check(self, page: Page) -> str:
        """A picture is well-formed, nothing on it overlaps, and nothing stands outside."""
        svg = picture(page)
        root = xml.dom.minidom.parseString(svg).documentElement
        places = boxes(svg)
        width, height = float(root.getAttribute("width")), float(root.getAttribute("height"))
        for box in places:
            self.assertTrue(0 <= box.left and box.right <= width and 0 <= box.top and box.bottom <= height, box)
        ordered = sorted(places, key=lambda box: box.top)
        for place, box in enumerate(ordered):
            for other in ordered[place + 1:]:
                if other.top >= box.bottom:
                    break
                self.assertFalse(box.touches(other), (box, other))
        return svg

    def test_nothing_overlaps_at_a_thousand_steps(self) -> None:
        page = page_of(whole_run(shards=4, items=44))
        self.assertGreater(page.steps[-1].step, 1000)
        self.check(page)

    def test_nothing_overlaps_at_any_size(self) -> None:
        for shards, items, seed in ((1, 0, 1), (1, 3, 2), (2, 2, 3), (2, 9, 4), (2, 30, 5), (3, 12, 6), (8, 2, 7)):
            with self.subTest((shards, items)):
                self.check(page_of(whole_run(shards, items, seed)))

    def test_nothing_overlaps_wherever_a_page_stops(self) -> None:
        lines = whole_run(shards=2, items=6)
        steps = lines[1:lines.index("order")]
        for count in range(1, len(steps), 3):
            self.check(page_of(["steps", *steps[:count], *lines[lines.index("order"):]]))

    def test_the_examples_are_drawn(self) -> None:
        for name in sorted(os.listdir(os.path.dirname(example("x")))):
            page = read_page(example(name)) if name.endswith(".page") else Page()
            if page.steps:
                with self.subTest(name):
                    self.check(page)

    def test_pictures_of_the_examples_stand_as_they_are_made(self) -> None:
        for name in sorted(os.listdir(os.path.dirname(example("x")))):
            if name.endswith(".svg"):
                with self.subTest(name), open(example(name), encoding="utf-8") as file:
                    self.assertEqual(run("timeline", example(name[:-4] + ".page")).stdout, file.read())


class Stories(unittest.TestCase):
    """What is told of a page's steps."""

    def test_a_crash_goes_back_to_the_kept_place(self) -> None:
        maker = PageMaker(["a", "b"], [])
        opening(maker)
        maker.say("clone a b: got 5, end", "cut a b: batch 0 to 2", "apply a b 0: insert rule 2, place 0, stash 0",
                  "apply a b 1: insert rule 2, place 1, stash 0", "record a b: place 2", "cut a b: batch 2 to 5",
                  "again a b 0 1: insert rule 1, place 2, stash 0", "again a b 0 0: repeated, at 2",
                  "crash a b: back to place 2")
        told = story_of(page_of(maker.page("switch", "end committed"))).links["a", "b"]
        self.assertEqual([(level.got, level.applied, level.kept) for level in told.levels[1:]],
                         [(5, 0, 0), (5, 1, 0), (5, 2, 0), (5, 2, 2), (5, 3, 2), (2, 2, 2)])
        self.assertEqual(told.levels[0], Level(0, 0, 0, 0))
        self.assertEqual([kind for _, kind in told.marks], ["clone", "crash"])

    def test_the_mark_stands_at_the_step_that_decides(self) -> None:
        for text, end, mark in (("advance: committing", "end committed", "switch"),
                                ("advance: aborting", "end aborted: clash a 1", "drop"),
                                ("fail a link", "end aborted: failed a link", "drop"),
                                ("client shop: command 1", "end aborted: asked shop 1", "drop")):
            maker = PageMaker(["a"], ["shop"])
            opening(maker)
            maker.say(text, "fail a link: too late", "advance: done")
            maker.made["shop"] = 1
            story = story_of(page_of(maker.page(mark, end)))
            self.assertEqual((story.mark, story.mark_text), (maker.step - 2, mark), text)
            self.assertEqual(story.phases[-1][1], "done")

    def test_a_mark_after_the_last_step_is_said(self) -> None:
        maker = PageMaker(["a"], ["shop"])
        opening(maker)
        maker.made["shop"] = 2
        page = page_of(maker.page("drop", "end aborted: clash a 1"))
        self.assertIsNone(story_of(page).mark)
        self.assertIn("drop, after the last step", picture(page))
        self.assertIn("2 commands, 2 later", picture(page))

    def test_idle_links_have_no_lane(self) -> None:
        maker = PageMaker(["a", "b"], [])
        opening(maker)
        maker.say("clone a b: got 0, end", "clone b a: idle")
        self.assertEqual(list(story_of(page_of(maker.page("switch", "end committed"))).links), [("a", "b")])

    def test_blocked_writes_have_a_beginning_and_an_end(self) -> None:
        story = story_of(page_of(whole_run(shards=2, items=1)))
        for begin, end in story.blocked.values():
            self.assertLess(begin, end)


class Words(unittest.TestCase):
    """The program."""

    def test_a_page_without_steps_is_refused(self) -> None:
        answer = run("timeline", example("clash.page"))
        self.assertEqual((answer.returncode, answer.stdout), (1, ""))
        self.assertIn("has no steps", answer.stderr)

    def test_what_is_no_page_is_refused(self) -> None:
        with tempfile.TemporaryDirectory() as folder:
            path = os.path.join(folder, "page")
            for text in (b"steps\n1 begin\n", b"\xff\n\n", b"a\nb\n", b"order\nclient a\nx\n"):
                with open(path, "wb") as file:
                    file.write(text)
                answer = run("timeline", path)
                self.assertEqual(answer.returncode, 1, text)
                self.assertNotIn("Traceback", answer.stderr)


if __name__ == "__main__":
    unittest.main()
