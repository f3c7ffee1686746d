"""`tools/prove library`, over a stub of rt and with the real C compiler."""

import os
import subprocess

from tests.stub_kit import SECONDS, StubKit


class Library(StubKit):
    """The library: an archive that rt makes, and a shared object that is linked from it."""

    SCRIPT = """
case $1 in
version) echo 'rattle-kit of the test' ;;
lib) mkdir -p out && cp "$STUB/libexport.a" out/libexport.a ;;
esac
"""
    MADE = ["version", "export: lib"]  # the calls of rt where the library is made, and where it is up to date
    FRESH = ["version"]

    def setUp(self):
        super().setUp()
        (self.stub / "export.c").write_text("int selkaum_stub(void) { return 7; }\n")
        for words in (["cc", "-fPIC", "-c", "export.c"], ["ar", "rc", "libexport.a", "export.o"]):
            subprocess.run(words, cwd=self.stub, check=True, timeout=SECONDS)
        self.script(self.SCRIPT)
        (self.repository / "crates/export/src").mkdir(parents=True)
        self.archive = self.repository / "target/staticlib/libexport.a"
        self.shared = self.repository / "target/shared/libselkaum.so"

    def prove(self, source="1", **more):
        """Run `prove library` where the crate is as `source` says: the status, and the calls of rt."""
        calls = len(self.calls())
        (self.repository / "crates/export/src/lib.rt").write_text(source)
        environment = dict(self.environment, **more)
        status, output, said = self.run_command(self.repository / "tools/prove", "library", env=environment)
        self.assertEqual(output, b"")
        return status, self.calls()[calls:], said

    def test_made_once(self):
        """Both are made, and made again only when the crate or the archive has changed."""
        self.assertEqual(self.prove()[:2], (0, self.MADE))
        self.assertIn(b"selkaum_stub", self.shared.read_bytes())
        first = self.shared.stat().st_ino
        self.assertEqual(self.prove(), (0, self.FRESH, ""))
        self.assertEqual(self.shared.stat().st_ino, first)
        self.assertEqual(self.prove("2")[:2], (0, self.MADE))
        later = self.shared.stat().st_mtime + 5
        os.utime(self.archive, (later, later))
        self.shared.write_bytes(b"of an earlier archive")
        os.utime(self.shared, (later - 5, later - 5))
        self.assertEqual(self.prove("2"), (0, self.FRESH, ""))
        self.assertIn(b"selkaum_stub", self.shared.read_bytes())

    def test_made_again(self):
        """An archive that is not as it was made is made again, and so is one that another kit made."""
        self.prove()
        self.archive.write_bytes(self.archive.read_bytes()[:-1])
        self.assertEqual(self.prove()[:2], (0, self.MADE))
        self.assertEqual(self.archive.read_bytes(), (self.stub / "libexport.a").read_bytes())
        self.script(self.SCRIPT.replace("of the test", "of another test"))
        self.assertEqual(self.prove()[:2], (0, self.MADE))
        self.assertEqual(self.prove(), (0, self.FRESH, ""))

    def test_no_link(self):
        """Where the shared object cannot be linked, the old one stays, and the next run tries again."""
        self.prove()
        old = self.shared.read_bytes()
        status, _, said = self.prove("2", CC="false")
        self.assertEqual(status, 2)
        self.assertTrue(said.endswith("prove: target/shared/libselkaum.so could not be linked from "
                                      "target/staticlib/libexport.a\n"), said)
        self.assertEqual(self.shared.read_bytes(), old)
        self.assertEqual(self.prove("2")[0], 0)
        status, _, said = self.prove("3", CC="no-such-compiler")
        self.assertEqual(status, 2)
        self.assertTrue(said.endswith("prove: a C compiler is needed, and no-such-compiler is not found\n"), said)

    def test_not_whole(self):
        """An archive that rt did not finish is made again."""
        self.prove()
        self.script(self.SCRIPT + '[ "$1" = version ] || { : > out/libexport.a; kill -KILL $$; }\n')
        self.assertEqual(self.prove("2")[0], 2)
        self.script(self.SCRIPT)
        self.assertEqual(self.prove("2")[:2], (0, self.MADE))
