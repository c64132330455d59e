"""Tries what is read and written: nobody else's file is touched, nothing is left half written, and
nothing waits or has no end."""
from __future__ import annotations

import fcntl
import os
import shutil
import signal
import stat
import subprocess
import sys
import time
import unittest
from pathlib import Path

from support import CANONICAL, FAULTY, NOBODY, SCORE, InFolder, command, has, processes_of

from gregorio_chant.work import files

# So many moments at which a writing run is killed; with GREGORIO_LONG=1 fifty.
MOMENTS = 50 if os.environ.get("GREGORIO_LONG") else 6
# In the folder that is the first word each new file of `format` becomes a link to the second word,
# as soon as it is there.
_ATTACK = """
import ctypes, os, struct, sys
libc = ctypes.CDLL(None, use_errno=True)
os.chdir(sys.argv[1])
events = libc.inotify_init()
libc.inotify_add_watch(events, b".", 0x100)
print("ready", flush=True)
while data := os.read(events, 8192):
    while data:
        length = struct.unpack_from("iIII", data)[3]
        name, data = data[16 : 16 + length].rstrip(b"\\0"), data[16 + length :]
        if name.startswith(b".gregorio-chant."):
            try:
                os.unlink(name)
                os.symlink(sys.argv[2], name)
            except OSError:
                pass
"""


class Strangers(InFolder):
    """What somebody may do who may write in the folder."""

    @unittest.skipUnless(os.geteuid() == 0 and sys.platform == "linux", "it wants two users")
    def test_no_file_is_given_away(self) -> None:
        victim = self.put("victim", "secret")
        victim.chmod(0o600)
        shared = Path("shared")
        shared.mkdir()
        os.chown(shared, NOBODY, NOBODY)
        attack = subprocess.Popen(
            [sys.executable, "-c", _ATTACK, "shared", str(victim.resolve())],
            user=NOBODY,
            group=NOBODY,
            stdout=subprocess.PIPE,
        )
        assert attack.stdout is not None
        self.assertEqual(attack.stdout.readline(), b"ready\n")
        try:
            for number in range(10):
                score = self.put(f"shared/{number}.gabc", SCORE)
                os.chown(score, NOBODY, NOBODY)
                command("format", "--canonical", score)
                state = victim.stat()
                self.assertEqual(
                    (state.st_uid, stat.S_IMODE(state.st_mode), victim.read_text()),
                    (0, 0o600, "secret"),
                )
        finally:
            attack.kill()
            attack.communicate()

    def test_links_out_of_a_folder(self) -> None:
        outside = self.put("outside.gabc", SCORE)
        self.put("s/in/a.gabc", SCORE)
        os.symlink("../outside.gabc", "s/out.gabc")
        os.symlink("in/a.gabc", "s/stays.gabc")
        for words in (
            ("format", "--canonical"),
            ("check", "--output-format", "lines"),
            ("index",),
            ("export", "--to", "midi", "--folder", "."),
        ):
            if words[0] == "export" and not has("mido"):
                continue
            ran = command(*words, "s")
            self.assertIn(
                (
                    b"gregorio-chant: s/out.gabc is passed by: this link leads out of the folder;"
                    b" name it to have it read\n"
                ),
                ran.stderr,
            )
            self.assertNotIn(b"out.gabc:", ran.stdout)
        self.assertEqual((outside.read_text(), Path("s/in/a.gabc").read_text()), (SCORE, CANONICAL))
        self.assertFalse(Path("out.mid").exists())
        self.assertEqual(command("format", "--canonical", "--quiet", "s/out.gabc").stderr, b"")
        self.assertEqual(outside.read_text(), CANONICAL)

    def test_what_is_swapped_after_the_walk(self) -> None:
        """A found name that leads elsewhere by now is not read, and a pipe is not waited for."""
        self.put("outside.gabc", SCORE)
        self.put("s/a.gabc", SCORE)
        reader = files.Reader.of(["s"])
        self.assertEqual(reader.read("s/a.gabc").data, SCORE.encode())
        os.unlink("s/a.gabc")
        os.symlink("../outside.gabc", "s/a.gabc")
        os.mkfifo("s/b.gabc")
        os.symlink("/dev/zero", "s/c.gabc")
        for name, why in (
            ("s/a.gabc", "leads out of the folder"),
            ("s/b.gabc", "no plain file"),
            ("s/c.gabc", "no plain file"),
        ):
            with self.assertRaisesRegex(OSError, why):
                reader.read(name)
        self.assertEqual(files.Reader.of(["s", "s/a.gabc"]).read("s/a.gabc").data, SCORE.encode())

    def test_a_score_without_an_end(self) -> None:
        ran = command("check", "--output-format", "lines", "/dev/zero")
        self.assertEqual(
            (ran.returncode, ran.stderr[:70]),
            (4, b"gregorio-chant: cannot read /dev/zero: it is longer than 268,435,456 b"),
        )

    def test_pages_stay_below_their_folder(self) -> None:
        self.put("s/a/b.gabc", SCORE)
        os.makedirs("pages")
        os.mkdir("elsewhere")
        os.symlink("../elsewhere", "pages/a")
        self.put("other.html", "mine")
        os.symlink("../other.html", "pages/index.html")
        ran = command("show", "-o", "pages/", "s")
        self.assertEqual(
            (ran.returncode, ran.stderr),
            (4, b"gregorio-chant: cannot write: it leads out of the folder\n"),
        )
        self.assertEqual(os.listdir("elsewhere"), [])
        os.unlink("pages/a")
        self.assertEqual(command("show", "-o", "pages/", "s").returncode, 0)
        self.assertEqual(Path("other.html").read_text(), "mine")
        self.assertFalse(Path("pages/index.html").is_symlink())


class Rights(InFolder):
    """What a file keeps when it is written anew."""

    def _set(self, path: Path, name: str, value: bytes) -> None:
        try:
            os.setxattr(path, name, value)
        except OSError as error:
            self.skipTest(f"this file system has no {name}: {error}")

    def test_attributes(self) -> None:
        score = self.put("a.gabc", SCORE)
        self._set(score, "user.note", b"mine")
        self.assertEqual(command("format", "--canonical", "--quiet", "a.gabc").stderr, b"")
        self.assertEqual((score.read_text(), os.getxattr(score, "user.note")), (CANONICAL, b"mine"))

    def test_lists_of_rights(self) -> None:
        """A list stays, and none is taken over from the folder."""
        # The version 2; then the owner rw, a user 65534 r, the group r, the mask r, others none;
        # each with its number.
        entries = ((1, 6, -1), (2, 4, NOBODY), (4, 4, -1), (16, 4, -1), (32, 0, -1))
        rights = b"\2\0\0\0" + b"".join(
            tag.to_bytes(2, "little")
            + may.to_bytes(2, "little")
            + (who % 2**32).to_bytes(4, "little")
            for tag, may, who in entries
        )
        listed, plain = self.put("a.gabc", SCORE), self.put("s/b.gabc", SCORE)
        plain.chmod(0o640)
        self._set(listed, "system.posix_acl_access", rights)
        os.setxattr("s", "system.posix_acl_default", rights)
        self.assertEqual(command("format", "--canonical", "--quiet", "a.gabc", "s").stderr, b"")
        self.assertEqual((listed.read_text(), plain.read_text()), (CANONICAL, CANONICAL))
        self.assertEqual(os.getxattr(listed, "system.posix_acl_access"), rights)
        self.assertNotIn("system.posix_acl_access", os.listxattr(plain))
        self.assertEqual(stat.S_IMODE(plain.stat().st_mode), 0o640)

    @unittest.skipUnless(os.geteuid() == 0, "it wants two users")
    def test_a_group_that_cannot_be_kept(self) -> None:
        """The group of whoever writes may do no more than everybody."""
        score = self.put("a.gabc", SCORE)
        os.chown(score, 1, 1)
        score.chmod(0o666)
        os.chmod(score, 0o676)
        self.assertEqual(
            command("format", "--canonical", "--quiet", "a.gabc", as_nobody=True).stderr, b""
        )
        state = score.stat()
        self.assertEqual(
            (state.st_uid, state.st_gid, stat.S_IMODE(state.st_mode)), (NOBODY, NOBODY, 0o666)
        )


class Outputs(InFolder):
    """What `show` and `export` write is whole at every moment."""

    def test_full_disk(self) -> None:
        self.put("a.gabc", SCORE)
        self.assertEqual(command("show", "-o", "page.html", "a.gabc").returncode, 0)
        page = Path("page.html").read_bytes()
        self.put("b.gabc", SCORE + "Ky(f)ri(g)e(h) " * 2_000)
        ran = command("show", "-o", "page.html", "b.gabc", limit=20_000)
        self.assertEqual(
            (ran.returncode, ran.stderr), (4, b"gregorio-chant: cannot write: File too large\n")
        )
        self.assertEqual(
            (Path("page.html").read_bytes(), sorted(os.listdir("."))),
            (page, ["a.gabc", "b.gabc", "page.html"]),
        )

    def test_what_is_named(self) -> None:
        """A named link is followed, a device is written into, and the mode stays."""
        self.put("a.gabc", SCORE)
        self.put("s/page.html", "old").chmod(0o604)
        os.symlink("s/page.html", "link.html")
        self.assertEqual(command("show", "-o", "link.html", "a.gabc").returncode, 0)
        self.assertTrue(Path("link.html").is_symlink())
        self.assertIn("</html>", Path("s/page.html").read_text())
        self.assertEqual(stat.S_IMODE(os.stat("s/page.html").st_mode), 0o604)
        self.assertEqual(command("show", "-o", "/dev/null", "a.gabc").returncode, 0)
        self.assertTrue(stat.S_ISCHR(os.stat("/dev/null").st_mode))
        self.assertIn(b"</html>", command("show", "-o", "/dev/stdout", "a.gabc").stdout)

    @unittest.skipUnless(has("mido"), "there is no mido")
    def test_export_over_a_link(self) -> None:
        self.put("a.gabc", SCORE)
        self.put("other", "mine")
        os.symlink("other", "a.mid")
        self.assertEqual(command("export", "--to", "midi", "a.gabc").returncode, 4)
        self.assertEqual(command("export", "--to", "midi", "--force", "a.gabc").returncode, 0)
        self.assertEqual(Path("other").read_text(), "mine")
        self.assertEqual(Path("a.mid").read_bytes()[:4], b"MThd")


class Ended(InFolder):
    """A run that is killed leaves each score whole, and the next one removes what it left."""

    def test_killed(self) -> None:
        old, new = SCORE.encode(), CANONICAL.encode()
        for moment in range(MOMENTS):
            shutil.rmtree("s", ignore_errors=True)
            for number in range(100):
                self.put(f"s/{number:03}.gabc", old)
            run = subprocess.Popen(
                [
                    sys.executable,
                    "-m",
                    "gregorio_chant",
                    "format",
                    "--canonical",
                    "--jobs",
                    str(1 + moment % 2),
                    "s",
                ],
                stderr=subprocess.DEVNULL,
                start_new_session=True,
            )
            awaited, end = Path(f"s/{moment * 97 // MOMENTS:03}.gabc"), time.monotonic() + 60
            while (
                awaited.stat().st_size == len(old) and run.poll() is None and time.monotonic() < end
            ):
                time.sleep(0.0002)
            run.send_signal(signal.SIGKILL)
            run.wait()
            # The system kills those that it made a moment later.
            while processes_of(run.pid) and time.monotonic() < end:
                time.sleep(0.001)
            self.assertLessEqual({it.read_bytes() for it in Path("s").glob("*.gabc")}, {old, new})
        # What is left of a run that is over goes, and what another one writes stays.
        left = self.put("s/.gregorio-chant.0123", "half")
        self.put("s/000.gabc", old)
        with open("s/.gregorio-chant.4567", "wb") as written:
            fcntl.flock(written, fcntl.LOCK_EX)
            self.assertEqual(command("format", "--canonical", "--quiet", "s").stderr, b"")
            self.assertFalse(left.exists())
            self.assertTrue(Path(written.name).exists())
        self.assertEqual(
            [it.name for it in Path("s").iterdir() if not it.name.endswith(".gabc")],
            [".gregorio-chant.4567"],
        )

    @unittest.skipUnless(os.geteuid() == 0, "it wants two users")
    def test_what_others_left(self) -> None:
        left = self.put("s/.gregorio-chant.0123", "half")
        os.chown(left, NOBODY, NOBODY)
        self.put("s/a.gabc", FAULTY)
        command("format", "s")
        self.assertTrue(left.exists())


if __name__ == "__main__":
    unittest.main()
