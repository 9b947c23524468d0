"""./ranges in a small repository, with stand-ins for rt and the program; examples/check_job runs the real ones."""

import os
import shutil
import subprocess
import unittest
from pathlib import Path
from tempfile import TemporaryDirectory

from . import TOOLS

CRATES = """\
# What ranges needs, and what it does not.
low:
high: low csv # a comment
aside: high
program_ranges: low high csv
"""
RT = """\
#!/bin/sh
[ "$* in ${PWD##*/}" = "run in program_ranges" ] || exit 2
exec 3>&1 >&2
echo "rt: chose --jobs 2 for low"
echo "fn low::next: proved"
echo "logic=proved functions=1 sum=0"
echo "rt: chose --jobs 2 for high"
echo "logic=proved functions=2 sum=0"
echo "rt: chose --jobs 2 for program_ranges"
echo "logic=proved functions=3 sum=0"
mkdir -p out
cp ../../program out/program_ranges
echo "rt: running out/program_ranges; to give it other input, run that file yourself"
echo "refused 11" >&3
"""
FAILING_RT = """\
#!/bin/sh
echo "rt: chose --jobs 2 for low" >&2
echo "logic=proved functions=1 sum=0" >&2
echo "high.rt:7: error: no" >&2
echo "rt: the library high did not build, so nothing above it was checked" >&2
exit 1
"""
PROGRAM = """\
#!/bin/sh
cat
"""
PROVING = """\
ranges: proving up to 3 crates and building the program (once, some minutes on two cores)
ranges: 1 of up to 3 crates proved: low
ranges: 2 of up to 3 crates proved: high
ranges: 3 of up to 3 crates proved: program_ranges
"""
FAILED = """\
ranges: proving up to 3 crates and building the program (once, some minutes on two cores)
ranges: 1 of up to 3 crates proved: low
rt: chose --jobs 2 for low
logic=proved functions=1 sum=0
high.rt:7: error: no
rt: the library high did not build, so nothing above it was checked
ranges: the program can't be proved and built
"""
TEXT = b"total 1 2\nday 0 1 2\n"


class RangesCommand(unittest.TestCase):
    def setUp(self):
        folder = TemporaryDirectory()
        self.addCleanup(folder.cleanup)
        self.root = Path(folder.name) / "a root"
        (self.root / "crates/program_ranges").mkdir(parents=True)
        (self.root / "crates.txt").write_text(CRATES)
        (self.root / "file").write_bytes(TEXT)
        shutil.copy(TOOLS.parent / "ranges", self.root)
        self.write_script("program", PROGRAM)
        self.write_script("rt", RT)

    def write_script(self, name: str, script: str) -> None:
        (self.root / name).write_text(script)
        (self.root / name).chmod(0o755)

    def run_ranges(self, *arguments: str, data: bytes = b"") -> tuple[int, str, str]:
        """Exit status, standard output and standard error of ./ranges, called from the folder above it."""
        path = f"{self.root}:{os.environ['PATH']}"
        done = subprocess.run(
            [f"{self.root.name}/ranges", *arguments],
            cwd=self.root.parent,
            env={**os.environ, "PATH": path},
            input=data,
            capture_output=True,
        )
        return done.returncode, done.stdout.decode(), done.stderr.decode()

    def test_a_line_for_each_crate_and_nothing_once_all_is_proved(self):
        self.assertEqual(self.run_ranges(data=TEXT), (0, TEXT.decode(), PROVING))
        self.assertEqual(self.run_ranges(data=TEXT), (0, TEXT.decode(), ""))

    def make_newer(self, name: str) -> None:
        """Makes a file newer than the program."""
        path = self.root / name
        path.parent.mkdir(parents=True, exist_ok=True)
        path.touch()
        newer = (self.root / "target/bin/program_ranges").stat().st_mtime + 1
        os.utime(path, (newer, newer))

    def test_newer_sources_are_proved(self):
        for name in ("crates.txt", "crates/low/src/lib.rt"):
            with self.subTest(name):
                self.run_ranges()
                self.make_newer(name)
                self.assertEqual(self.run_ranges(data=TEXT)[2], PROVING)
                (self.root / "target/bin/program_ranges").unlink()
                os.utime(self.root / name, (0, 0))

    def test_what_rt_keeps_is_no_source(self):
        self.run_ranges()
        self.make_newer("crates/low/out/rlib/stamp")
        self.assertEqual(self.run_ranges(data=TEXT), (0, TEXT.decode(), ""))

    def test_a_program_that_is_gone_is_built_again(self):
        self.run_ranges()
        (self.root / "target/bin/program_ranges").unlink()
        self.assertEqual(self.run_ranges(data=TEXT), (0, TEXT.decode(), PROVING))

    def test_a_failing_proof(self):
        self.write_script("rt", FAILING_RT)
        self.assertEqual(self.run_ranges(), (2, "", FAILED))

    def test_a_folder_that_cannot_be_made(self):
        (self.root / "target").touch()
        self.assertEqual(self.run_ranges()[:2], (2, ""))

    def test_input_and_output_are_opened_before_anything_is_proved(self):
        for words, status, says in (
            ("missing", 2, "ranges: missing can't be read"),
            (".", 2, "ranges: the input is a directory"),
            ("<.", 2, "ranges: the input is a directory"),
            ("<&-", 2, "ranges: standard input is closed"),
            (">&-", 3, "ranges: standard output is closed"),
        ):
            with self.subTest(words):
                command = ["bash", "-c", f"./ranges {words}"]
                done = subprocess.run(command, cwd=self.root, capture_output=True, timeout=60)
                self.assertEqual((done.returncode, done.stdout), (status, b""))
                self.assertTrue(done.stderr.decode().endswith(f"{says}\n"), done.stderr)
                self.assertNotIn(b"proving", done.stderr)

    def test_names(self):
        self.run_ranges()
        for arguments in ((f"{self.root.name}/file",), (str(self.root / "file"),), ("-",), ()):
            with self.subTest(arguments):
                self.assertEqual(self.run_ranges(*arguments, data=TEXT), (0, TEXT.decode(), ""))

    def test_a_refusal(self):
        self.run_ranges()
        self.assertEqual(self.run_ranges(data=b"refused 7\n"), (1, "refused 7\n", ""))

    def test_a_program_that_fails(self):
        self.write_script("program", "#!/bin/sh\necho total\nexit 1\n")
        status, output, errors = self.run_ranges()
        self.assertEqual((status, output), (2, ""))
        self.assertTrue(errors.endswith("ranges: the input can't be read, or target/bin/program_ranges can't be run\n"))

    def test_usage(self):
        status, usage, errors = self.run_ranges("--help")
        self.assertEqual((status, errors), (0, ""))
        self.assertTrue(usage.startswith("usage: ./ranges [FILE]\n"))
        self.assertEqual(self.run_ranges("-h"), (0, usage, ""))
        for arguments in (("-x",), ("--", "file"), ("file", "file"), ("file", "--help")):
            self.assertEqual(self.run_ranges(*arguments), (2, "", usage))
