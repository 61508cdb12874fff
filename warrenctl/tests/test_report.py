"""The tests of report, which want Python 3 alone: python3 -m dev.unit test_report

A page is read as HTML: links lead to what they name, nothing is loaded, and what a guarantee marks in the picture is its way. In a browser it is looked
at only if one is installed.
"""

import json
import os
import shutil
import struct
import subprocess
import tempfile
import unittest
from html.parser import HTMLParser

from dev import SHOP
from dev.beds.commands import warrenctl
from warrenctl.tests.broken import never, reaches, topology

BROWSER = next(filter(None, map(shutil.which, ("chromium", "chromium-browser", "google-chrome"))), None)
# elements without an end
VOID = ("meta", "rect", "path")
# what would load something, or run it
LOADS = ("script", "link", "img", "iframe", "object", "embed", "image", "use", "base", "form")


class Page(HTMLParser):
    """What a page has: its elements are closed in their order."""

    def __init__(self, text):
        super().__init__()
        self.open, self.ids, self.links, self.loads, self.titles, self.texts = [], [], [], [], {}, []
        self.verdicts, self.said = [], {}
        self.feed(text)
        self.close()
        assert not self.open, self.open

    def handle_starttag(self, tag, attributes):
        given = dict(attributes)
        self.ids += [given["id"]] if "id" in given else []
        self.links += [given["href"]] if "href" in given else []
        self.loads += [tag] if tag in LOADS or "src" in given or any(it.startswith("on") for it in given) else []
        if tag not in VOID:
            self.open.append((tag, (given.get("class") or "").split()))

    def handle_startendtag(self, tag, attributes):
        self.handle_starttag(tag, attributes)
        if tag not in VOID:
            self.open.pop()

    def handle_endtag(self, tag):
        assert self.open and self.open[-1][0] == tag, (tag, self.open)
        self.open.pop()

    def handle_data(self, data):
        tags = [tag for tag, _ in self.open]
        classes = [it for _, them in self.open for it in them]
        if tags[-1:] == ["title"] and "svg" in tags:
            self.titles[data] = set(classes) | self.titles.get(data, set())
        if "verdict" in classes:
            self.verdicts.append(data)
        if "said" in classes:
            number = next(it for it in classes if it[0] == "s" and it[1:].isdigit())
            self.said[number] = self.said.get(number, "") + data
        if "style" not in tags:
            self.texts.append(data)

    @property
    def text(self):
        return "".join(self.texts)

    def marked(self, mark):
        return {title for title, classes in self.titles.items() if mark in classes}


def run(definitions, guarantees=None, *words):
    with tempfile.TemporaryDirectory() as folder:
        names = []
        for name, value in (("definitions.json", definitions), ("guarantees.json", None if guarantees is None else {"guarantees": guarantees})):
            if value is not None:
                names.append(os.path.join(folder, name))
                with open(names[-1], "w", encoding="utf-8") as file:
                    json.dump(value, file)
        done = subprocess.run([*warrenctl("report"), *names, *(words or ("--alone",))], capture_output=True, text=True)
    return done.returncode, done.stdout, done.stderr


class Pages(unittest.TestCase):
    def setUp(self):
        self.definitions = topology(
            {"X": "topic Else", "Y": "fanout", "Else": "fanout", "D": "direct"},
            {"q": ("D", "dead"), "r": None, "lost": None, "graves": None, "lonely": None},
            [("X", "a.*", "q"), ("X", "b.#", "Y"), ("Y", "", "r"), ("Else", "", "lost"), ("D", "dead", "graves")],
        )

    def page(self, guarantees, status):
        found, text, said = run(self.definitions, guarantees)
        self.assertEqual((found, said), (status, ""))
        page = Page(text)
        self.assertEqual(len(page.ids), len(set(page.ids)))
        self.assertEqual({it for it in page.links if it[:1] != "#" or it[1:] not in page.ids}, set())
        self.assertEqual(page.loads, [])
        self.assertNotIn("url(http", text)
        self.assertNotIn("@import", text)
        return page

    def test_what_holds(self):
        page = self.page([reaches("X", "b.#", "r"), never("X", "b.#", "lost")], 0)
        self.assertEqual(page.verdicts, ["yes", "yes"])
        self.assertIn("every b.# of X reaches r", page.text)
        self.assertIn("Guarantees: 2 yes, 0 NO, 0 undecided; by matching alone", page.text)
        way = {"exchange X, topic", "exchange Y, fanout", "queue r, queue", "binding: X to Y: b.#", "binding: Y to r"}
        self.assertEqual(page.marked("g1"), way)

    def test_what_does_not_hold(self):
        """The key is named, and its path is red: with the queue that is missed, and with dead letters."""
        page = self.page([reaches("X", "a.#", "q"), never("X", "a.x", "graves")], 1)
        self.assertEqual(page.verdicts, ["NO", "NO"])
        self.assertIn("The path of the key a is red", page.said["s1"])
        self.assertIn("a goes to lost alone", page.said["s1"])
        self.assertEqual(page.marked("r1"), {"exchange X, topic", "exchange Else, fanout", "queue lost, queue", "queue q, queue", "alternate: X to Else: else", "binding: Else to lost"})
        steps = {"binding: X to q: a.*", "dead letters: q to D: rejected as dead", "binding: D to graves: dead"}
        self.assertEqual(page.marked("r2"), {"exchange X, topic", "queue q, queue", "exchange D, direct", "queue graves, queue"} | steps)

    def test_keys_that_are_dropped_and_dead_ends(self):
        text = self.page(None, 0).text
        self.assertIn("There are none.", text)
        self.assertIn("Xnone", text)
        self.assertIn("Dw0, for example", text)
        self.assertIn("lonelyno exchange leads to itthey are gone: a dead end", text)
        self.assertIn("qXD as dead", text)

    def test_names_are_no_marks(self):
        for name in ("<script>", 'a"b', "a&b", "`", "a\x00b", "</title>"):
            self.definitions["exchanges"][1]["name"] = name
            for it in self.definitions["bindings"]:
                it.update({member: name for member in ("source", "destination") if it[member] == "Y"})
            self.page([reaches("X", "b.#", "r"), reaches(name, "#", "q")], 1)
            self.definitions["exchanges"][1]["name"] = "Y"
            for it in self.definitions["bindings"]:
                it.update({member: "Y" for member in ("source", "destination") if it[member] == name})

    def test_a_ring_and_nothing_at_all(self):
        self.definitions = topology({"A": "fanout", "B": "fanout"}, {"q": ("A",)}, [("A", "", "B"), ("B", "", "A"), ("B", "", "q"), ("A", "", "A")])
        self.page([reaches("A", "#", "q")], 0)
        self.definitions = topology({}, {}, [])
        self.page([], 0)

    def test_what_is_wrong_is_one_line(self):
        self.assertEqual(run({**self.definitions, "vhosts": []})[0], 1)
        for words in (("--alone", "--out", "/nowhere/file"), ("--warren", "/nowhere"), ("--no-such-word",)):
            status, out, said = run(self.definitions, [reaches("X", "a", "q")], *words)
            self.assertEqual((status, out, said.count("\n")), (3, "", 1), words)


@unittest.skipUnless(BROWSER, "chromium")
class InABrowser(unittest.TestCase):
    def test_light_and_dark_narrow_and_wide(self):
        """Each is drawn: no two of the four are the same, and each is as wide as its window."""
        with tempfile.TemporaryDirectory() as folder:
            page = os.path.join(folder, "page.html")
            files = [os.path.join(SHOP, f"{it}.json") for it in ("definitions", "guarantees")]
            self.assertEqual(subprocess.run([*warrenctl("report"), *files, "--alone", "--out", page]).returncode, 0)
            pictures = set()
            for width in (400, 1400):
                for more in ((), ("--force-dark-mode", "--enable-features=WebUIDarkMode", "--blink-settings=preferredColorScheme=0")):
                    picture = os.path.join(folder, "page.png")
                    command = [BROWSER, "--headless", "--no-sandbox", f"--window-size={width},1200", f"--screenshot={picture}", *more, f"file://{page}#g1"]
                    subprocess.run(command, check=True, capture_output=True, timeout=120, env={**os.environ, "HOME": folder})
                    with open(picture, "rb") as file:
                        data = file.read()
                    self.assertEqual(struct.unpack_from(">I", data, 16)[0], width)
                    pictures.add(data)
            self.assertEqual(len(pictures), 4)


if __name__ == "__main__":
    unittest.main()
