"""Tests that each wrong body can be put in the text that it changes, and names the functions whose bodies it changes. Its
trial says so too, but only after the proofs."""
import os
import sys
import unittest

sys.dont_write_bytecode = True
sys.path.insert(0, os.path.dirname(os.path.dirname(os.path.realpath(__file__))))

from crate_copies import texts_of  # noqa: E402
from rattle_source import homes_of, module_of, places_in  # noqa: E402
from wrong_bodies import BadEdit, applied, functions_in, read_edit  # noqa: E402
from wrong_bodies_run import FOLDERS, edit_files  # noqa: E402

CRATES = f"{os.path.dirname(os.path.dirname(os.path.dirname(os.path.realpath(__file__))))}/crates"


def bodies_changed(texts, pairs):
    """The functions whose bodies these pairs change in turn, "" for what is in no body."""
    found = set()
    for path, old, new in pairs:
        text = texts[path]
        start = text.index(old)
        # (an old text may begin with the line of the function, to stand once in its file)
        changed = start + len(os.path.commonprefix([old, new]))
        sources = {it: said for it, said in texts.items() if it.startswith("src/")}
        places = places_in(text, module_of(path), homes_of(sources)) if path in sources else []
        inside = [it for it in places if it.start <= start and start + len(old) <= it.end][-1:]
        found |= {it.name if it.body < changed else "" for it in inside} or {""}
        texts = applied(texts, [(path, old, new)])
    return found


class Edits(unittest.TestCase):
    def test_each_edit_fits_its_text_and_names_its_functions(self):
        count, unfit = 0, []
        for crate in sorted(os.listdir(CRATES)):
            files, _ = edit_files(f"{CRATES}/{crate}", FOLDERS)
            texts = texts_of(f"{CRATES}/{crate}") if files else {}
            known = functions_in(texts)
            for path in files:
                count += 1
                try:
                    with open(path, encoding="utf-8") as file:
                        edit = read_edit(os.path.basename(path), file.read(), texts, known)
                    bodies = bodies_changed(texts, edit.pairs)
                    if edit.is_of_bodies != ("" not in bodies) or edit.is_of_bodies and edit.functions != bodies:
                        unfit.append(f"{os.path.relpath(path, CRATES)}: it changes {sorted(bodies)}")
                except (BadEdit, UnicodeDecodeError) as error:
                    unfit.append(f"{os.path.relpath(path, CRATES)}: {error}")
        self.assertEqual(unfit, [])
        self.assertGreater(count, 1000)


if __name__ == "__main__":
    unittest.main()
