"""Tests of the pictures that stand beside cases and examples: nothing stands outside, and no text over another."""
import glob
import os
import unittest
import xml.etree.ElementTree as ElementTree

TOP = os.path.dirname(os.path.dirname(os.path.dirname(os.path.realpath(__file__))))
SVG = "{http://www.w3.org/2000/svg}"


def pictures():
    return sorted(glob.glob(f"{TOP}/cases/**/*.svg", recursive=True) + glob.glob(f"{TOP}/examples/*.svg"))


def outside(root):
    """The boxes that do not lie within a picture."""
    width, height = int(root.get("width")), int(root.get("height"))
    boxes = [[int(it.get(what)) for what in ("x", "y", "width", "height")] for it in root.iter(f"{SVG}rect") if it.get("y")]
    return [it for it in boxes if it[0] + it[2] > width or it[1] + it[3] > height or min(it) < -8]


def overlaps(root):
    """The texts of one height of which one stands over the other, by the usual width of a character."""
    rows, found = {}, []
    for it in root.findall(f"{SVG}text"):
        classes = it.get("class").split()
        if it.text:
            wide, x = len(it.text) * (5.7 if "a" in classes else 6.6), float(it.get("x"))
            x -= wide if "r" in classes else wide / 2 if {"m", "v"} & set(classes) else 0
            rows.setdefault(it.get("y"), []).append((x, x + wide, it.text))
    for row in map(sorted, rows.values()):
        found += [(one, other) for one, other in zip(row, row[1:]) if one[1] > other[0] + 1]
    return found


class Pictures(unittest.TestCase):
    def test_there_are_pictures_of_examples_and_cases(self):
        self.assertGreaterEqual(len(pictures()), 12)
        examples = {it[: -len(".txt")] for it in glob.glob(f"{TOP}/examples/*.txt")}
        self.assertEqual({it[: -len(".svg")] for it in pictures() if "/examples/" in it}, examples)

    def test_nothing_stands_outside_or_over_another(self):
        for path in pictures():
            root = ElementTree.parse(path).getroot()
            self.assertEqual((outside(root), overlaps(root)), ([], []), path)

    def test_they_are_told_and_have_two_modes(self):
        for path in pictures():
            root = ElementTree.parse(path).getroot()
            told = root.find(f"{SVG}desc").text
            self.assertTrue(root.find(f"{SVG}title").text and "client 1" in told, path)
            self.assertIn("@media screen and (prefers-color-scheme:dark)", root.find(f"{SVG}style").text)
            self.assertFalse([it for it in root.iter() if it.tag in (f"{SVG}script", f"{SVG}image", f"{SVG}a")])

    def test_what_stands_outside_is_found(self):
        text = "<svg xmlns='http://www.w3.org/2000/svg' width='10' height='10'><rect x='1' y='1' width='10' height='1'/></svg>"
        self.assertEqual(outside(ElementTree.fromstring(text)), [[1, 1, 10, 1]])


if __name__ == "__main__":
    unittest.main()
