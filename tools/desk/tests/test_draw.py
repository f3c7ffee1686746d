"""The club as a picture."""

import re
import shutil
import unittest

from desk.tests.support import CLUB, DeskTest, environment

CIRCLES = b"""\
founder MAKE group a in club
founder MAKE group b in a
founder PUT a into b
founder PUT b into b
founder MAKE group c in club
"""
FAKE_DOT = """#!/bin/sh
test "$1" = -Tsvg && cat > given.dot && echo '<svg/>'
"""


class Draw(DeskTest):
    """`desk draw`."""

    def test_dot(self):
        """Groups, members, gear, memberships, posts and rules."""
        lines = self.desk("draw", CLUB, status=0).out.splitlines()
        self.assertEqual((lines[0], lines[-1]), ("digraph club {", "}"))
        for label, shape in (("radios", "box"), ("hf", "hexagon"), ("anna", "ellipse")):
            found = [line for line in lines if f'label="{label}"' in line]
            self.assertEqual([f'shape="{shape}"' in line for line in found], [True])
        self.assertIn("  n4 -> n3;", lines)
        self.assertIn('  n7 -> w2 [style="dashed", color="gray40", arrowhead="none"];', lines)
        self.assertIn('  w2 -> n2 [style="dashed", color="gray40"];', lines)
        self.assertIn('  w2 -> n3 [style="dashed", color="gray40"];', lines)
        for word in ("owner", "manager", "administrator"):
            self.assertTrue(any(f'label="{word}"' in line for line in lines), word)
        self.assertTrue(any('label="rule 0: listen, tune, transmit"' in line for line in lines))
        self.assertNotIn("red", "".join(lines))

    def test_circles(self):
        """The memberships of a circle are coloured, and no others."""
        lines = self.desk("draw", self.file("x.club", CIRCLES), status=0).out.splitlines()
        red = [line.split(" [")[0].strip() for line in lines if 'color="red"' in line]
        self.assertEqual(red, ["n2 -> n3", "n3 -> n2", "n3 -> n3"])

    def test_json(self):
        """DOT in a document."""
        self.assertTrue(self.documents("draw", CLUB)[0]["dot"].startswith("digraph club {\n"))

    def test_the_picture_of_the_example(self):
        """The SVG beside the example has every label of its DOT, and as many ways."""
        drawn, picture = self.desk("draw", CLUB, status=0).out, CLUB.with_suffix(".svg").read_text()
        labels = re.findall(r'label="([^"]*)"', drawn)
        self.assertEqual(sorted(re.findall(r"<text [^>]*>([^<]*)</text>", picture)), sorted(labels))
        self.assertEqual(picture.count('class="edge"'), drawn.count(" -> "))

    def path_with(self, *programs) -> dict:
        """An environment in which only these programs are found."""
        folder = self.folder / "bin"
        folder.mkdir()
        for name, text in programs:
            (folder / name).write_text(text)
            (folder / name).chmod(0o755)
        for name in ("cat", "sh", "echo", "test"):
            if shutil.which(name):
                (folder / name).symlink_to(shutil.which(name))
        return environment(PATH=str(folder))

    def test_without_graphviz(self):
        """One sentence says that graphviz is not there."""
        said = self.faulty("draw", CLUB, "--svg", "x.svg", env=self.path_with())
        self.assertEqual(said,
                         "desk: graphviz is not installed, so there is no SVG; `desk draw` without --svg writes DOT")
        self.assertFalse((self.folder / "x.svg").exists())

    def test_with_graphviz(self):
        """What `dot` makes of the DOT is written; where it fails, that is told."""
        env = self.path_with(("dot", FAKE_DOT))
        self.assertEqual(self.desk("draw", CLUB, "--svg", "x.svg", env=env, status=0).out,
                         "the club is drawn in x.svg\n")
        self.assertEqual((self.folder / "x.svg").read_text(), "<svg/>\n")
        self.assertEqual((self.folder / "given.dot").read_text(), self.desk("draw", CLUB).out)
        self.assertIn("it can't be written", self.faulty("draw", CLUB, "--svg", "none/x.svg", env=env))
        (self.folder / "bin/dot").write_text("#!/bin/sh\necho broken >&2\nexit 3\n")
        self.assertEqual(self.faulty("draw", CLUB, "--svg", "x.svg", env=env),
                         "desk: graphviz ended with the status 3: broken")


if __name__ == "__main__":
    unittest.main()
