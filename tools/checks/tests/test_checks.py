"""Holds the checks of documents against pages and sources with a fault in them, which each has to name."""
from __future__ import annotations

import argparse
import contextlib
import io
import os
import shutil
import subprocess
import sys
import tempfile
import unittest
from pathlib import Path
from unittest import mock

sys.path.insert(0, str(Path(__file__).resolve().parents[1]))

# pylint: disable=wrong-import-position
import checkout  # noqa: E402
import commands  # noqa: E402
import embedding  # noqa: E402
import figures  # noqa: E402
import layout  # noqa: E402
import names  # noqa: E402
import quick  # noqa: E402
import sentences  # noqa: E402
import trusted  # noqa: E402
import where  # noqa: E402

CRATES = "# NAME: below\nacdm_record: byteorder thiserror\nacdm_tables: acdm_record toml # tables\n"


class Folder(unittest.TestCase):
    """A folder of files for each test."""

    def setUp(self) -> None:
        room = tempfile.TemporaryDirectory()  # pylint: disable=consider-using-with
        self.addCleanup(room.cleanup)
        self.top = Path(room.name).resolve()

    def write(self, name: str, text: str) -> Path:
        """Writes a file of the folder."""
        file = self.top / name
        file.parent.mkdir(parents=True, exist_ok=True)
        file.write_text(text, encoding="utf-8")
        return file


class Crates(Folder):
    """The crates that are trusted, and the version."""

    def test_crates_of_the_kit_are_those_that_are_not_listed(self) -> None:
        self.assertEqual(checkout.crates_of_kit(CRATES), {"byteorder", "thiserror", "toml"})

    def test_a_crate_that_is_missing_and_one_too_many_are_named(self) -> None:
        self.write("crates.txt", CRATES)
        self.write(
            "README.md",
            "# A\n\n## What is trusted\n\n`std`, `byteorder`, `thiserror` and `clap`.\n\n## Next\n\n`toml`\n",
        )
        self.write(
            "NOTICES.md", "# N\n\n## Ports that this repository names\n\n| `byteorder` |\n| `thiserror` |\n| `toml` |\n"
        )
        wanted = [
            "README.md, What is trusted, lacks toml, which crates.txt names",
            "README.md, What is trusted, has clap, which crates.txt does not name",
        ]
        self.assertEqual(trusted.crate_faults(self.top), wanted)

    def test_a_version_of_two_parts_is_named(self) -> None:
        self.write("VERSION", "0.9\n")
        self.assertEqual(trusted.version_faults(self.top), ["VERSION: `0.9` is no number of three parts"])


class Names(Folder):
    """Names, files and links of a page."""

    def faults(self, text: str) -> list[str]:
        """Returns the faults of a page beside one crate."""
        self.write(
            "crates/acdm_record/src/field.rt",
            "/// A field. Gone is only told here, as `Lost`.\npub struct Field;\nfn width_of() {}\n",
        )
        self.write("docs/RULES.md", "# Rules\n\n## Codes, in short\n")
        page = self.write("docs/PAGE.md", text)
        tree = names.Tree.__new__(names.Tree)
        tree.top, tree.words, tree.declared = self.top, set(), set()
        tree.files = {"crates/acdm_record/src/field.rt", "docs/RULES.md", "docs/PAGE.md"}
        tree.folders = {str(parent) for name in tree.files for parent in Path(name).parents}
        tree.add("crates/acdm_record/src/field.rt")
        return names.faults_of(page, tree, set())

    def test_what_is_there_is_no_fault(self) -> None:
        text = "`Field`, `width_of`, `docs/RULES.md`; `acdm_record`: `src/field.rt`; [codes](RULES.md#codes-in-short)\n"
        self.assertEqual(self.faults(text.replace("`acdm_record`", "acdm_record")), [])

    def test_what_is_gone_is_named_with_its_line(self) -> None:
        self.assertEqual(self.faults("One.\n\n`Lost`\n"), ["docs/PAGE.md:3: no source has Lost"])
        self.assertEqual(self.faults("`is_gone`\n"), ["docs/PAGE.md:1: no source has is_gone"])
        self.assertEqual(self.faults("`docs/GONE.md`\n"), ["docs/PAGE.md:1: no file docs/GONE.md"])
        self.assertEqual(self.faults("acdm_record: `src/gone.rt`\n"), ["docs/PAGE.md:1: no file src/gone.rt"])

    def test_links_lead_to_a_file_and_a_heading(self) -> None:
        self.assertEqual(self.faults("[a](GONE.md)\n"), ["docs/PAGE.md: no file for the link GONE.md"])
        self.assertEqual(self.faults("[a](RULES.md#gone)\n"), ["docs/PAGE.md: no heading for the link RULES.md#gone"])

    def test_what_begins_as_a_script_can_be_started(self) -> None:
        subprocess.run(["git", "init", "-q", self.top], check=True)
        for name in ("plain.py", "one.py", "other.py"):
            self.write(name, "#!/bin/sh\n" if name != "plain.py" else "import sys\n")
        (self.top / "other.py").chmod(0o755)
        subprocess.run(["git", "add", "."], cwd=self.top, check=True)
        with mock.patch.object(names, "TOP", self.top):
            self.assertEqual(names.unstartable(), ["one.py: it begins with #! and is not executable"])


class Embedding(Folder):
    """A program of the page of programs to begin with, and what it stands on."""

    PAGE = (
        "| [`examples/embedding/one`](#one) | a program | 2 crates |\n\n"
        "    mkdir -p ../one/crates/app/src\n"
        "    for crate in low \\\n"
        '        high; do cp -r crates/$crate ../one/crates; grep "^$crate:" crates.txt >> ../one/crates.txt; done\n'
        "    cp examples/embedding/one/main.rt.txt ../one/crates/app/src/main.rt\n"
        "    (cd ../one/crates/app && rt try)\n\n"
        "It prints\n\n    7\n\nby the line\n\n    app: high hex\n"
    )

    def faults(self, page: str) -> list[str]:
        """Returns the faults of a page with one program."""
        self.write("crates.txt", "low: arrayvec\nhigh: low\nother: low\n")
        self.write("examples/embedding/one/crates.line", "app: high hex\n")
        self.write("examples/embedding/one/main.rt.txt", "// other::gone\nuse high::seven;\nlet it = hex::digits();\n")
        self.write("examples/embedding/one/stdout", "7\n")
        (example,) = embedding.examples_of(page)
        return embedding.name_faults(example, page, self.top)

    def test_what_the_page_copies_and_shows_is_no_fault(self) -> None:
        self.assertEqual(self.faults(self.PAGE), [])

    def test_a_crate_that_is_missing_and_one_too_many_are_named(self) -> None:
        about = "docs/EMBEDDING.md: one:"
        wanted = [f"{about} other is copied without need", f"{about} low is not copied"]
        self.assertEqual(self.faults(self.PAGE.replace("in low", "in other")), wanted)

    def test_another_line_number_and_output_are_named(self) -> None:
        about = "docs/EMBEDDING.md: one:"
        self.assertEqual(
            self.faults(
                self.PAGE.replace("app: high", "app: high low").replace("    7", "    8").replace("2 crates", "3")
            ),
            [
                f"{about} the line of its crates.txt is not shown",
                f"{about} its first run prints otherwise than its stdout",
                f"{about} the table does not say that it stands on 2 crates",
            ],
        )


class Figures(Folder):
    """Numbers of a source and of a page."""

    NUMBER = figures.Number("flights", "board.rt", r"MOST: usize = ([\d_]+)", (("PAGE.md", r"room for # flights"),))

    def test_the_same_number_is_no_fault_though_its_line_is_broken(self) -> None:
        self.write("board.rt", "const MOST: usize = 4_096;\n")
        self.write("PAGE.md", "There is room for 4,096\nflights.\n")
        self.assertEqual(figures.faults_of(self.NUMBER, self.top), [])

    def test_another_number_and_none_are_named(self) -> None:
        self.write("board.rt", "const MOST: usize = 384;\n")
        self.write("PAGE.md", "There is room for 320 flights.\n")
        self.assertEqual(figures.faults_of(self.NUMBER, self.top), ["PAGE.md: flights: 320, and board.rt has 384"])
        self.write("PAGE.md", "There is room.\n")
        self.assertEqual(
            figures.faults_of(self.NUMBER, self.top), ["PAGE.md: flights: nothing stands there as `room for # flights`"]
        )

    def test_a_message_that_the_rules_lack_is_named(self) -> None:
        source = 'Failure::Keep => line(b"acdm: keep failed"), Failure::Role(n) => numbered(b"acdm: role ", n),'
        self.write("crates/acdm_failures/src/failure.rt", source)
        self.write("docs/RULES.md", "It says `acdm: keep\nfailed`.\n")
        self.assertEqual(figures.message_faults(self.top), ["docs/RULES.md lacks the line `acdm: role`"])
        self.write("docs/RULES.md", "It says `acdm: keep failed` or `acdm: role K`.\n")
        self.assertEqual(figures.message_faults(self.top), [])


class Sentences(Folder):
    """The prose of a page, cut into sentences."""

    def test_the_headline_stands_word_for_word(self) -> None:
        page = self.write("README.md", f"# A\n\n**{sentences.HEADLINE}**\n\nOne two.\n")
        with mock.patch.object(sentences, "TOP", self.top):
            self.assertEqual(sentences.faults_of(page), [])
            page.write_text(f"# A\n\n**{sentences.HEADLINE}**\n".replace("every", "each"), encoding="utf-8")
            self.assertIn("README.md: the headline does not stand there word for word", sentences.faults_of(page))

    def test_a_sentence_and_a_line_that_are_too_long_are_named(self) -> None:
        """30 words and 120 characters are none: on a page that is read first, at the top and in docs."""
        with mock.patch.object(sentences, "TOP", self.top):
            for name, text, wanted in (
                ("SECURITY.md", "word " * 15 + "\n" + "word " * 14 + "word.\n", 0),
                ("SECURITY.md", "word " * 15 + "\n" + "word " * 15 + "word. One two.\n", 1),
                ("docs/RULES.md", "word " * 15 + "\n" + "word " * 15 + "word.\n", 0),
                ("docs/RULES.md", "x" * 120 + "\n", 0),
                ("docs/RULES.md", "x" * 121 + "\n", 1),
                ("SECURITY.md", "x" * 121 + "\n", 1),
                ("bench/README.md", "x" * 121 + "\n", 0),
                ("docs/RULES.md", "    " + "x" * 121 + "\n", 0),
            ):
                with self.subTest(name=name, text=text[-20:]):
                    found = sentences.faults_of(self.write(name, text))
                    self.assertEqual(wanted, len(found), found)
                    self.assertTrue(all(it.startswith(f"{name}: a ") for it in found), found)

    def test_tables_code_and_headings_are_no_prose(self) -> None:
        text = "# Head\n\nOne two. Three `a.b c` four:\n\n    ./acdm run\n\n| a | b |\n\n- five\n- six\n"
        found = sentences.sentences_of(text)
        self.assertEqual([len(sentence.split()) for sentence in found], [2, 4, 2, 2])


class Commands(Folder):
    """The commands of a page."""

    def test_commands_stand_in_blocks_and_between_backticks(self) -> None:
        text = "Say `./acdm audit day.journal` or `acdm`:\n\n    ./acdm run < lines \\\n      | wc\n    ok 0\n\n"
        text += "```rust\ncd x\n```\n\n```\ncd y\n```\n"
        wanted = ["./acdm audit day.journal", "./acdm run < lines | wc", "cd y"]
        self.assertEqual(commands.commands_of(self.write("PAGE.md", text)), wanted)

    def test_a_form_is_no_command(self) -> None:
        for form in (
            "./acdm serve APT=127.0.0.1:4001 ..",
            "clients/board.py ADDRESS",
            "clients/check.py 'LINE'",
            "a.py x [--once]",
        ):
            self.assertTrue(commands.FORM.search(form), form)
        for command in ("./acdm serve APT=127.0.0.1:4001", 'echo "1 2 APT {}" > load.txt', "a.py -I .. x"[:6]):
            self.assertFalse(commands.FORM.search(command), command)

    def test_a_port_that_is_taken_is_replaced_in_all_commands(self) -> None:
        shared = commands.Shared()
        shared.claimed.add(4001)
        page = commands.Page(commands.TOP / "README.md", self.top, shared, self.top)
        served = page.placed("./acdm serve --control 4199 --web 127.0.0.1:8080 APT=127.0.0.1:4001")
        port = page.mapped["4001"]
        self.assertNotEqual(port, "4001")
        self.assertTrue(served.endswith(f"APT=127.0.0.1:{port}"))
        self.assertEqual(page.placed("clients/partner.py 127.0.0.1:4001"), f"clients/partner.py 127.0.0.1:{port}")
        self.assertEqual(set(page.mapped), {"4199", "8080", "4001"})

    def test_a_board_that_does_not_listen_is_a_fault(self) -> None:
        self.write("acdm", "#!/bin/sh\necho 'acdm: address 1' >&2\nexit 2\n").chmod(0o755)
        page = commands.Page(commands.TOP / "README.md", self.top, commands.Shared(), self.top)
        page.run("./acdm serve APT=127.0.0.1:4000")
        self.assertEqual(
            page.counts.faults, ["README.md: `./acdm serve APT=127.0.0.1:4000` ended with 2: acdm: address 1"]
        )

    def test_a_board_that_a_command_closed_has_ended_before_the_next_command(self) -> None:
        served = (
            "import socket, time",
            "asked = socket.create_server(('127.0.0.1', {port}))",
            "asked.accept()[0].recv(64)",
            "asked.close()",
            "time.sleep(0.5)",
        )
        self.write("acdm", '#!/bin/sh\nexec python3 -c "$(sed "s/{port}/$4/" served)"\n').chmod(0o755)
        self.write("served", "\n".join(served))
        closes = "import socket, sys\nsocket.create_connection(('127.0.0.1', int(sys.argv[1]))).sendall(b'close')\n"
        self.write("clients/control.py", f"#!/usr/bin/env python3\n{closes}").chmod(0o755)
        page = commands.Page(commands.TOP / "docs/OPERATING.md", self.top, commands.Shared(), self.top)
        with mock.patch.dict(commands.SUPPOSED, {page.name: "./acdm serve --again --control 4199"}):
            page.run("clients/control.py 4199 close")
            page.run("clients/control.py 4199 close")
        self.assertEqual((page.counts.ran, page.counts.faults), (2, []))

    def test_a_command_that_fails_in_the_middle_of_a_pipe_is_a_fault(self) -> None:
        page = commands.Page(commands.TOP / "README.md", self.top, commands.Shared(), self.top)
        page.run("false | cat")
        self.assertEqual(page.counts.faults, ["README.md: `false | cat` ended with 1: "])

    def test_what_needs_a_program_is_counted_where_there_is_none(self) -> None:
        page = commands.Page(commands.TOP / "README.md", self.top, commands.Shared(), None)
        page.run("./acdm run < examples/day.txt")
        self.assertEqual((page.counts.ran, page.counts.skipped, page.counts.faults), (0, 1, []))

    def test_what_a_missing_tool_would_make_is_left_out_too(self) -> None:
        page = commands.Page(commands.TOP / "README.md", self.top, commands.Shared(), self.top)
        with mock.patch.object(commands.shutil, "which", lambda tool: None if tool == "clang" else tool):
            page.run("clang -c slot.c -o slot.o")
            page.run("cat slot.o > slot.bin")
            page.run("cat slot.bin")
        self.assertEqual((page.counts.ran, page.counts.skipped, page.counts.faults), (0, 3, []))


class Layout(Folder):
    """The layout of a crate's sources, by a stand-in of the kit."""

    def test_what_is_laid_out_otherwise_is_named(self) -> None:
        rt_ = self.write("bin/rt", "#!/bin/sh\n[ $1 = fmt ] && sed -i 's/  */ /g' src/*.rt\n[ ! -e src/broken.rt ]\n")
        rt_.chmod(0o755)
        crate = self.top / "crates" / "acdm_record"
        for name, text in (("one", "fn one() {}\n"), ("two", "fn  two() {}\n")):
            self.write(f"crates/acdm_record/src/{name}.rt", text)
        path = f"{self.top / 'bin'}:{os.environ['PATH']}"
        with mock.patch.object(layout, "TOP", self.top), mock.patch.dict(os.environ, {"PATH": path}):
            wanted = "crates/acdm_record/src/two.rt is not in the layout: run rt fmt in crates/acdm_record"
            self.assertEqual(layout.changed(crate, layout.copied(crate, self.top / "copy")), [wanted])
            self.assertEqual((crate / "src" / "two.rt").read_text(encoding="ascii"), "fn  two() {}\n", "it is left")
            self.write("crates/acdm_record/src/broken.rt", "fn")
            self.assertEqual(layout.changed(crate, layout.copied(crate, self.top / "other")), ["acdm_record: "])


class Schemas(Folder):
    """The examples and the schemas."""

    def test_a_line_that_fits_otherwise_than_its_reply_is_named(self) -> None:
        for name in ("tools/checks", "docs", "examples", "bench/feed", "bench/model"):
            shutil.copytree(checkout.TOP / name, self.top / name)
        for name in ("CHANGELOG.md", "README.md"):
            shutil.copy(checkout.TOP / name, self.top)
        subprocess.run(["git", "init", "-q", self.top], check=True)
        replies = self.top / "examples" / "turn-round.out"
        text = replies.read_text(encoding="ascii")
        self.assertTrue(text.startswith("ok 0\nok 1\n"), text)
        self.write("docs/PAGE.md", 'Send `{"cmd":"show","flight":0}`.\n')
        for wrong, status in ((text, "docs/PAGE.md: the schema refuses"), (text.replace("ok 1", "bad 104"), "line 2")):
            replies.write_text(wrong, encoding="ascii")
            done = subprocess.run(
                [self.top / "tools/checks/schemas.py"], capture_output=True, text=True, timeout=60, check=False
            )
            if done.returncode == checkout.LEFT_OUT:
                self.skipTest(done.stdout)
            self.assertEqual((1, ""), (done.returncode, done.stderr))
            self.assertIn(status, done.stdout)
            self.assertEqual(2 - (wrong == text), len(done.stdout.splitlines()), done.stdout)


class Quick(Folder):
    """How the quick gate counts its checks."""

    def ran(self, *checks: quick.Check, rest: bool = False) -> tuple[int, list[str]]:
        """The status of some checks, and what was said of them."""
        asked = argparse.Namespace(list=False, rest=rest, program=None, no_build=True)
        said = io.StringIO()
        with contextlib.ExitStack() as patched:
            for name, value in (("CHECKS", checks), ("SECONDS", 3), ("TOP", self.top)):
                patched.enter_context(mock.patch.object(quick, name, value))
            patched.enter_context(mock.patch.object(quick, "asked_words", lambda: asked))
            patched.enter_context(mock.patch.object(quick, "program_for", lambda _asked: (None, "no program")))
            patched.enter_context(contextlib.redirect_stdout(said))
            status = quick.main()
        return status, said.getvalue().splitlines()

    def test_what_passed_what_failed_and_what_was_left_out(self) -> None:
        status, said = self.ran(quick.Check("one", "echo fine"), quick.Check("two", "echo why; exit 77"))
        self.assertEqual((0, "1 passed, 0 failed"), (status, said[-1]))
        self.assertRegex("\n".join(said), r"(?m)^left out +\d+\.\d s  two: why$")
        status, said = self.ran(
            quick.Check("one", "true"),
            quick.Check("two", "echo told; exit 3"),
            quick.Check("late", "echo begun; sleep 50"),
            quick.Check("file", "true", "nothing.py"),
            quick.Check("tool", "true", "", "no-such-tool"),
            quick.Check("piped", "false | cat"),
        )
        self.assertEqual((1, "1 passed, 3 failed"), (status, said[-1]))
        text = "\n".join(said)
        for told in ("two\ntold\n", "late\nbegun\nno end within 3 s\n", "file: there is no nothing.py"):
            self.assertIn(told, text)
        self.assertIn("left out          tool: no-such-tool is not installed", said)

    def test_the_rest_leaves_out_what_is_made_whole(self) -> None:
        checks = quick.Check("whole", "false", is_whole_there=True), quick.Check("one", "true")
        self.assertEqual(
            (0, "1 passed, 0 failed"), (status_of := self.ran(*checks, rest=True))[:1] + (status_of[1][-1],)
        )
        self.assertEqual(1, self.ran(*checks)[0])

    def test_each_check_is_one_that_can_be_made(self) -> None:
        """What a check names as its file is there, and so is each script of its command."""
        self.assertEqual(len(quick.CHECKS), len({check.name for check in quick.CHECKS}))
        for check in quick.CHECKS:
            scripts = [word for word in check.command.split() if word.endswith(".py")]
            for name in [*scripts, *([check.file] if not check.file.startswith("/") else [])]:
                self.assertTrue((checkout.TOP / name.split("{")[0]).exists(), name)
        gate = (checkout.TOP / ".ci" / "run").read_text(encoding="utf-8")
        for word in ("bench/rows/listing.py", "bench/walks/run.py", "desk/tests/try_desk.py"):
            self.assertIn(f"'{word}", gate, "what --rest leaves out is there")


class Where(Folder):
    """Where to change what, and the files that are there."""

    PLACES = '[[role.places]]\npurpose = "its name"\nfiles = ["names.rt"]\n'
    HEAD = '[role]\nwhat = "a role"\nexamples = ["TWR"]\n'
    BESIDE = '[[role.beside]]\nwhy = "a day of it"\nfiles = ["days/*.txt"]\n'

    def setUp(self) -> None:
        super().setUp()
        subprocess.run(["git", "init", "-q", self.top], check=True)
        self.write("names.rt", "TWR\n")
        self.write("days/day.txt", "1 TWR show\n")
        self.write("other.rt", "TWRS and tower, but TWR_NAME\n")

    def read(self, text: str) -> dict[str, where.Kind]:
        """Returns the kinds of a table whose only kind is a role."""
        self.write(where.TABLE, text)
        with mock.patch.object(where, "KINDS", ("role",)):
            return where.kinds_of(self.top)

    def faults(self, text: str) -> list[str]:
        """Returns what is wrong with the role of a table."""
        return where.faults_of(self.read(text)["role"], where.texts_of(self.top))

    def test_a_table_with_all_files_has_no_fault(self) -> None:
        self.assertEqual(self.faults(self.HEAD + self.PLACES + self.BESIDE), [])

    def test_a_file_and_a_pattern_that_are_gone_are_told(self) -> None:
        places = self.PLACES.replace('["names.rt"]', '["names.rt", "gone.rt", "*.none"]')
        wanted = [f"docs/where.toml: role.places[1].files: there is no {name}" for name in ("gone.rt", "*.none")]
        self.assertEqual(self.faults(self.HEAD + places + self.BESIDE), wanted)

    def test_a_file_that_is_missing_is_told_with_its_line(self) -> None:
        self.write("src/owns.rt", "// who owns what\nTWR => true,\n")
        wanted = ["docs/where.toml: role: src/owns.rt:2 has TWR, and is no place of it, nor beside"]
        self.assertEqual(self.faults(self.HEAD + self.PLACES + self.BESIDE), wanted)

    def test_an_example_that_no_file_has_is_told(self) -> None:
        wanted = ["docs/where.toml: role.examples: no file has the word RAMP"]
        head = self.HEAD.replace('["TWR"]', '["TWR", "RAMP"]')
        self.assertEqual(self.faults(head + self.PLACES + self.BESIDE), wanted)

    def test_a_file_with_all_older_names_is_missing_too(self) -> None:
        self.write("boards.rt", "APT, ATC and NM\n")
        self.write("airport.rt", "APT alone\n")
        head = self.HEAD + 'older = [["NM", "ATC", "APT"]]\n'
        wanted = ["docs/where.toml: role: boards.rt has all of NM, ATC, APT, and is no place of it, nor beside"]
        self.assertEqual(self.faults(head + self.PLACES + self.BESIDE), wanted)
        listed = self.PLACES.replace('["names.rt"]', '["names.rt", "boards.rt"]')
        self.assertEqual(self.faults(head + listed + self.BESIDE), [])
        head = head.replace('"APT"]]', '"APT", "AO"]]')
        wanted = ["docs/where.toml: role.older: no file has all of NM, ATC, APT, AO"]
        self.assertEqual(self.faults(head + self.PLACES + self.BESIDE), wanted)

    def test_what_stands_beside_without_need_is_told(self) -> None:
        beside = self.BESIDE.replace('["days', '["other.rt", "names.rt", "days')
        wanted = [
            f"docs/where.toml: role.beside[1].files: {name} need not stand there: strike it"
            for name in ("other.rt", "names.rt")
        ]
        self.assertEqual(self.faults(self.HEAD + self.PLACES + beside), wanted)

    def test_a_faulty_table_is_told_with_its_key(self) -> None:
        for text, wanted in (
            (self.HEAD + self.PLACES.replace("purpose", "purposes"), "role.places[1].purposes: no such key; there are"),
            (self.HEAD + self.PLACES.replace('["names.rt"]', '"names.rt"'), "role.places[1].files: no list of texts"),
            (self.HEAD + self.PLACES.replace("its name", " "), "role.places[1].purpose: no text"),
            (self.HEAD.replace('["TWR"]', "[]") + self.PLACES, "role.examples: no list of texts"),
            (self.HEAD.replace('["TWR"]', '["TWR", "TWR"]') + self.PLACES, "role.examples: TWR stands there twice"),
            (self.HEAD + 'older = ["TWR"]\n' + self.PLACES, "role.older.1: no list of texts"),
            (self.HEAD, "role.places: no place"),
            ("role = 1\n", "role: no table"),
            ("", "role: this kind is missing"),
            ("role\n", "Expected '=' after a key"),
        ):
            with self.assertRaises(where.Faulty) as told:
                self.read(text)
            self.assertTrue(str(told.exception).startswith(f"docs/where.toml: {wanted}"), told.exception)

    def test_a_pattern_stands_for_one_name_or_for_folders(self) -> None:
        for glob, name, is_meant in (
            ("a/*.rt", "a/b.rt", True),
            ("a/*.rt", "a/b/c.rt", False),
            ("a/**/c.rt", "a/c.rt", True),
            ("a/**/c.rt", "a/b/b/c.rt", True),
            ("a/**", "a/b/c.rt", True),
            ("a.rt", "aXrt", False),
        ):
            self.assertEqual(bool(where.pattern_of(glob).fullmatch(name)), is_meant, (glob, name))

    def test_an_option_is_found_as_a_whole_word(self) -> None:
        self.assertEqual(where.line_of("--tock", "--tocks --tock-late\n[--tock N]\n"), 2)
        self.assertEqual(where.line_of("--tock", "--tock-late a--tock\n"), 0)

    def test_purposes_and_files_are_printed_in_columns(self) -> None:
        places = self.PLACES.replace('["names.rt"]', '["names.rt", "days/*.txt"]\nnote = "by hand"')
        lines = where.lines_of_kind(self.read(self.HEAD + places)["role"])
        self.assertEqual(lines[-3:], ["its name  names.rt", "          days/*.txt", "          (by hand)"])

    def test_an_unknown_kind_is_refused_in_one_line(self) -> None:
        done = subprocess.run([where.TOP / "tools/where", "rol"], capture_output=True, text=True, check=False)
        self.assertEqual((done.returncode, done.stdout), (2, ""))
        self.assertEqual(done.stderr, f"where: no kind 'rol'; there are {', '.join(where.KINDS)}\n")


if __name__ == "__main__":
    unittest.main()
