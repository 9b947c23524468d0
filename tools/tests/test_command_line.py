import os
import shlex
import shutil
import subprocess
import unittest
from pathlib import Path
from tempfile import TemporaryDirectory

from cloverdrum_profile.command_line import EXAMPLE, USAGE
from cloverdrum_profile.files import MOST_BYTES
from cloverdrum_profile.messages import MOST_SHOWN

from . import EXAMPLES, TOOLS

ALE, TOO_WARM = EXAMPLES / "ale.profile", EXAMPLES / "too_warm.profile"
ALE_TEXT = EXAMPLES / "ale.txt"
HUGE = 200_000_000
REFUSED, WRONG_USE, UNWRITABLE = 1, 2, 3


def run(*arguments: str | Path, tools: Path = TOOLS, data: bytes = b"") -> tuple[int, str, str]:
    """Exit status, standard output and standard error of the tool."""
    done = subprocess.run([tools / "profile", *arguments], input=data, capture_output=True)
    return done.returncode, done.stdout.decode(), done.stderr.decode()


def run_in_shell(words: str, folder: Path) -> tuple[int, str, str]:
    """The same for a line of shell, in which `profile` is the tool."""
    tool = f'profile() {{ {shlex.quote(str(TOOLS / "profile"))} "$@"; }}'
    done = subprocess.run(["bash", "-c", f"{tool}; {words}"], cwd=folder, stdin=subprocess.DEVNULL, capture_output=True)
    return done.returncode, done.stdout.decode(), done.stderr.decode()


class InFolder(unittest.TestCase):
    def setUp(self):
        folder = TemporaryDirectory()
        self.addCleanup(folder.cleanup)
        self.folder = Path(folder.name)


class Commands(InFolder):
    def test_usage(self):
        for arguments in ((), ("make",), ("make", "a"), ("text", "a", "b"), ("bake", "a")):
            self.assertEqual(run(*arguments), (2, "", USAGE))
        self.assertEqual(run("--help"), (0, USAGE, ""))

    def test_the_example_in_the_usage(self):
        file = self.folder / "example.profile"
        self.assertEqual(run("make", "-", file, data=EXAMPLE.encode()), (0, "", ""))
        status, table, _ = run("explain", file)
        self.assertEqual(status, 0)
        self.assertIn("3 days, 2 cuts", table)

    def test_make_and_text(self):
        file = self.folder / "ale.profile"
        self.assertEqual(run("make", EXAMPLES / "ale.txt", file), (0, "", ""))
        self.assertEqual(file.read_bytes(), ALE.read_bytes())
        status, text, _ = run("text", "-", data=file.read_bytes())
        self.assertEqual((status, text), run("text", file)[:2])

    def test_make_takes_a_byte_order_mark(self):
        text = b"\xef\xbb\xbf" + (EXAMPLES / "ale.txt").read_bytes()
        self.assertEqual(run("make", "-", self.folder / "ale.profile", data=text), (0, "", ""))

    def test_explain(self):
        status, table, _ = run("explain", EXAMPLES / "doc01.profile")
        self.assertEqual(status, 0)
        self.assertEqual(
            table.split("\n"),
            [
                "3 days, 2 cuts; degrees Celsius, the total in degree-days",
                "",
                "               entered              at opening          after the cuts",
                "total         0.10       0.12       0.10       0.12       0.11       0.11",
                "day 0         0.02       0.06       0.02       0.04       0.03       0.03",
                "day 1         0.04       0.07       0.04       0.05       0.04       0.04",
                "day 2         0.04       0.07       0.04       0.06       0.04       0.04",
                "",
            ],
        )

    def test_explain_filling_days(self):
        status, table, _ = run("explain", EXAMPLES / "tall_tank.profile")
        self.assertEqual(status, 0)
        head, *rows = table.split("\n")
        self.assertEqual(head, "21 days, 3 cuts; degrees Celsius, the total in degree-days from day 3 on")
        self.assertEqual([row[:5] for row in rows if row.endswith("  filling")], ["day 0", "day 1", "day 2"])

    def test_explain_a_first_counted_day_that_is_not_there(self):
        data = bytearray((EXAMPLES / "doc01.profile").read_bytes())
        data[16] = 3
        status, words, errors = run("explain", "-", data=bytes(data))
        place = "the first counted day, byte 16: the profile has no day 3, its days are 0 to 2"
        self.assertEqual((status, errors), (1, ""))
        self.assertEqual(words, f"refused 13: the first counted day is not in the profile\n{place}\n")

    def test_explain_a_refusal(self):
        status, words, errors = run("explain", TOO_WARM)
        self.assertEqual((status, errors), (1, ""))
        self.assertTrue(words.startswith("refused 8: no schedule exists\nat opening: day 3 can't be below 20.25"))

    def test_chart(self):
        chart = self.folder / "ale.svg"
        self.assertEqual(run("chart", ALE, chart), (0, "", ""))
        self.assertEqual(run("chart", ALE, "-"), (0, chart.read_text(encoding="utf-8"), ""))


class Outputs(InFolder):
    def setUp(self):
        super().setUp()
        self.text = self.folder / "ale.txt"
        self.profile = self.folder / "ale.profile"
        shutil.copy(ALE_TEXT, self.text)
        shutil.copy(ALE, self.profile)

    def assert_run(self, words: str, status: int = 0, says: str = "") -> None:
        self.assertEqual(run_in_shell(words, self.folder), (status, "", says and f"{says}\n"))

    def assert_contents(self, *names: str) -> None:
        """The folder has these files and no other, and the text and the profile are as they were."""
        self.assertEqual(sorted(os.listdir(self.folder)), sorted(["ale.txt", "ale.profile", *names]))
        self.assertEqual(self.text.read_bytes(), ALE_TEXT.read_bytes())
        self.assertEqual(self.profile.read_bytes(), ALE.read_bytes())

    def test_the_input_is_never_written_over(self):
        os.symlink("ale.txt", self.folder / "soft")
        os.link(self.text, self.folder / "hard")
        says = "is the input itself: name another file for the output"
        for source, target in (
            ("ale.txt", "ale.txt"),
            ("ale.txt", "./ale.txt"),
            ("ale.txt", str(self.text)),
            ("soft", "ale.txt"),
            ("ale.txt", "soft"),
            ("ale.txt", "hard"),
            ("- <ale.txt", "ale.txt"),
        ):
            with self.subTest(source=source, target=target):
                self.assert_run(f"profile make {source} {target}", WRONG_USE, f"{target} {says}")
        self.assert_run("profile make ale.txt - >>ale.txt", WRONG_USE, f"standard output {says}")
        self.assert_run("profile chart ale.profile ale.profile", WRONG_USE, f"ale.profile {says}")
        self.assert_contents("soft", "hard")

    def test_a_device_may_be_input_and_output(self):
        self.assertEqual(run("make", "/dev/null", "/dev/null")[0], REFUSED)

    def test_a_failure_leaves_the_output_as_it_was(self):
        (self.folder / "out").write_text("old")
        for command in ("make ale.txt", "chart ale.profile"):
            # With this limit no file can grow.
            self.assert_run(f"ulimit -f 0; profile {command} out", UNWRITABLE, "out: File too large")
            self.assertEqual((self.folder / "out").read_text(), "old")
            self.assert_contents("out")

    def test_modes(self):
        self.assert_run("umask 027; profile make ale.txt new")
        self.assertEqual((self.folder / "new").stat().st_mode & 0o777, 0o640)
        (self.folder / "new").chmod(0o604)
        self.assert_run("profile make ale.txt new")
        self.assertEqual((self.folder / "new").stat().st_mode & 0o777, 0o604)

    @unittest.skipIf(os.geteuid() == 0, "root may write any file")
    def test_an_output_that_may_not_be_written(self):
        (self.folder / "out").write_text("old")
        (self.folder / "out").chmod(0o444)
        self.assert_run("profile make ale.txt out", UNWRITABLE, "out: Permission denied")
        self.assertEqual((self.folder / "out").read_text(), "old")
        self.assert_contents("out")

    def test_a_link_stays_a_link(self):
        (self.folder / "inner").mkdir()
        for target in ("there", "new"):
            os.symlink(f"inner/{target}", self.folder / target)
        (self.folder / "inner/there").write_text("old")
        self.assert_run("profile make ale.txt there && profile make ale.txt new")
        self.assert_contents("inner", "there", "new")
        for target in ("there", "new"):
            self.assertTrue((self.folder / target).is_symlink())
            self.assertEqual((self.folder / "inner" / target).read_bytes(), ALE.read_bytes())

    def test_what_is_no_regular_file_is_written_to(self):
        self.assert_run("profile make ale.txt /dev/stdout | cmp - ale.profile")
        self.assert_run("mkfifo pipe; profile make ale.txt pipe & cmp pipe ale.profile && wait")
        self.assert_run("echo old >out; profile make ale.txt /dev/stdout >>out")
        self.assertEqual((self.folder / "out").read_bytes(), b"old\n" + ALE.read_bytes())
        self.assert_contents("out", "pipe")

    def test_outputs_that_cannot_be_written(self):
        for words, says in (
            ("make ale.txt /dev/full", "/dev/full: No space left on device"),
            ("make ale.txt - >/dev/full", "standard output: No space left on device"),
            ("make ale.txt - >&-", "standard output: Bad file descriptor"),
            ("text ale.profile >/dev/full", "standard output: No space left on device"),
            ("explain ale.profile >&-", "standard output: Bad file descriptor"),
            ("--help >/dev/full", "standard output: No space left on device"),
            ("make ale.txt no/new", "no/new: No such file or directory"),
            ("make ale.txt new/", "new/: Is a directory"),
            ("make ale.txt ''", ": No such file or directory"),
            ("chart ale.profile .", ".: Is a directory"),
        ):
            with self.subTest(words):
                self.assert_run(f"profile {words}", UNWRITABLE, says)
        self.assert_contents()

    def test_a_reader_that_has_seen_enough(self):
        self.assert_run("mkfifo pipe; true <pipe & exec >pipe; wait; profile text ale.profile", UNWRITABLE)


class Errors(InFolder):
    def assert_error(self, *arguments: str | Path, says: str, status: int = REFUSED, **options) -> str:
        """The tool ends with this status and says this, among what is returned."""
        ended, output, errors = run(*arguments, **options)
        self.assertEqual((ended, output), (status, ""))
        self.assertIn(says, errors)
        self.assertNotIn("Traceback", errors)
        return errors

    def copy_of_tools(self) -> Path:
        return shutil.copytree(TOOLS, self.folder / "tools")

    def test_a_faulty_text_makes_no_file(self):
        file = self.folder / "new.profile"
        self.assert_error("make", "-", file, data=b"total 1 2\n", says="standard input: there is no day")
        self.assertFalse(file.exists())

    def test_a_refusal_draws_no_chart(self):
        chart = self.folder / "new.svg"
        self.assert_error("chart", TOO_WARM, chart, says=run("explain", TOO_WARM)[1])
        self.assertFalse(chart.exists())

    def test_a_refused_file_has_no_text(self):
        self.assert_error("text", "-", says="refused 11: the file's length or an offset is wrong\nthe header, byte 0")

    def test_files_that_are_not_there(self):
        for command in (("make", "no.txt", "-"), ("text", "no"), ("chart", "no", "-"), ("explain", "no")):
            self.assert_error(*command, status=WRONG_USE, says=f"{command[1]}: No such file or directory")

    def test_inputs_that_cannot_be_read(self):
        self.assert_error("text", self.folder, status=WRONG_USE, says="Is a directory")
        for command in ("make - new", "text -", "chart - new", "explain -"):
            done = run_in_shell(f"profile {command} <&-", self.folder)
            self.assertEqual(done, (WRONG_USE, "", "standard input: Bad file descriptor\n"))
        self.assertEqual(os.listdir(self.folder), [])

    def test_a_name_is_shown_without_control_characters(self):
        self.assert_error("text", "a\n\x1b[31m", status=WRONG_USE, says="a\\n\\x1b[31m: No such file or directory\n")

    def test_bytes_in_place_of_a_text(self):
        for data, says in ((b"total \xff", "byte 6 is not UTF-8"), (b"total 1 2\n\0\0", "byte 10 is 0")):
            errors = self.assert_error("make", "-", "-", data=data, says=f"this is not a text: {says}")
            self.assertEqual(errors.count("\n"), 1)

    def test_a_huge_file(self):
        huge = self.folder / "huge"
        with huge.open("wb") as file:
            file.truncate(HUGE)
        says = f"{huge}: this is too long for a profile: it has over 1,048,576 bytes\n"
        for command in (("make", huge, "-"), ("text", huge), ("chart", huge, "-"), ("explain", huge)):
            self.assertEqual(self.assert_error(*command, says=says), says)

    def test_an_endless_file(self):
        says = "/dev/zero: this is too long for a profile: it has over 1,048,576 bytes\n"
        done = run_in_shell("ulimit -v 1000000; profile make /dev/zero -", self.folder)
        self.assertEqual(done, (REFUSED, "", says))

    def test_the_longest_text_that_is_read(self):
        text = ALE_TEXT.read_bytes()
        comment = b"#" * (MOST_BYTES - len(text))
        self.assertEqual(run("make", "-", self.folder / "new", data=text + comment), (0, "", ""))
        self.assertEqual((self.folder / "new").read_bytes(), ALE.read_bytes())
        self.assert_error("make", "-", "-", data=text + comment + b"#", says="standard input: this is too long")

    def test_a_long_line_is_not_shown_whole(self):
        longest_line = MOST_SHOWN + 100
        for line in (b"a" * 99_999, b"\x01" * 99_999, b"total 1 " + b"x" * 99_999, b"total 1 2." + b"3" * 99_999):
            errors = self.assert_error("make", "-", "-", data=line, says="standard input:1: ")
            self.assertLess(max(map(len, errors.split("\n"))), longest_line)
            self.assertTrue(errors.replace("\n", "").isprintable())

    def test_a_text_in_place_of_bytes(self):
        for command in (("text", "-"), ("chart", "-", "-"), ("explain", "-")):
            self.assert_error(*command, data=b"# An ale\n", says="this is a text: tools/profile make makes")

    def test_without_the_program(self):
        tools = self.copy_of_tools()
        self.assert_error("explain", ALE, tools=tools, status=WRONG_USE, says="ranges can't be run: No such file")

    def test_programs_that_answer_wrongly(self):
        tools = self.copy_of_tools()
        program = self.folder / "ranges"
        for script, says in (
            ("exit 3", "failed with exit status 3"),
            ("echo total", "printed something unknown"),
            ("echo refused 3; exit 1", "answers refused 3, and tools/profile works out ranges: it can't explain this"),
        ):
            program.write_text(f"#!/bin/sh\ncat >/dev/null\n{script}\n")
            program.chmod(0o755)
            self.assert_error("explain", ALE, tools=tools, status=WRONG_USE, says=says)
