#!/usr/bin/env python3
"""Tests tools/netfile.py: net M's bytes in both forms, round trips, names, pictures, every refusal, and that a refusal writes nothing."""

import contextlib
import importlib.util
import io
import os
import pathlib
import random
import re
import shutil
import struct
import subprocess
import sys
import tempfile
import unittest

ROOT = pathlib.Path(__file__).resolve().parent.parent
TOOL = ROOT / "tools" / "netfile.py"

sys.dont_write_bytecode = True
SPEC = importlib.util.spec_from_file_location("netfile", TOOL)
netfile = importlib.util.module_from_spec(SPEC)
SPEC.loader.exec_module(netfile)

M_FILE = bytes.fromhex(
    "18000000 08000000 20000000 14000000 34000000 14000000"
    "02000000 04000000"
    "04000000 0a080000 07100000 06200000 08280000"
    "00000400 01000400 02000500 03000400 03000000"
)
M_TEXT = b"""objects 2
kinds 4
0 is 2
1 is 5
2 is-not 3
4 is 3
5 is 4
ask 0 4
ask 1 4
ask 2 5
ask 3 4
ask 3 0
"""

# M in a file of four entries: its second link is of origin 3, its third of origin 1, and 0, 1 and 3 are to be used.
M_FOUR_FILE = bytes.fromhex(
    "20000000 08000000 28000000 14000000 3c000000 14000000 50000000 04000000"
    "02000000 04000000"
    "04000000 0a086000 07102000 06200000 08280000"
    "00000400 01000400 02000500 03000400 03000000"
    "0b000000"
)
M_FOUR_TEXT = b"""objects 2
kinds 4
origins 0 1 3
0 is 2
1 is 5 origin 3
2 is-not 3 origin 1
4 is 3
5 is 4
ask 0 4
ask 1 4
ask 2 5
ask 3 4
ask 3 0
"""
OLD = b"what stood there before"


def numbers_of(*numbers):
    """Numbers of four bytes."""
    return b"".join(number.to_bytes(4, "little") for number in numbers)


def file_of(objects, kinds, words, questions, origins=None):
    """A net file, put together here without the tool: of four entries where a set of origins is given."""
    links = numbers_of(*words)
    asked = b"".join(x.to_bytes(2, "little") + y.to_bytes(2, "little") for x, y in questions)
    if origins is None:
        contents = numbers_of(24, 8, 32, len(links), 32 + len(links), len(asked))
        return contents + numbers_of(objects, kinds) + links + asked
    behind = 40 + len(links)
    contents = numbers_of(32, 8, 40, len(links), behind, len(asked), behind + len(asked), 4)
    return contents + numbers_of(objects, kinds) + links + asked + numbers_of(origins)


def run(*arguments, given=b""):
    """Runs the tool as a program."""
    command = [sys.executable, str(TOOL), *map(str, arguments)]
    return subprocess.run(command, input=given, capture_output=True, check=False)


class InFolder(unittest.TestCase):
    """A test with a folder of its own."""

    def setUp(self):
        folder = tempfile.TemporaryDirectory()
        self.addCleanup(folder.cleanup)
        self.folder = pathlib.Path(folder.name)
        self.text = self.folder / "net.txt"
        self.file = self.folder / "net.net"

    def call(self, *arguments):
        """Runs the tool's main inside this process: exit status and standard error."""
        errors = io.StringIO()
        with contextlib.redirect_stderr(errors):
            status = netfile.main([str(each) for each in arguments])
        return status, errors.getvalue()

    def make(self, text, *options):
        """Makes self.file from a text."""
        self.text.write_bytes(text)
        return self.call("make", *options, self.text, self.file)


class NetM(InFolder):
    """The 72 bytes of net M."""

    def test_sizes(self):
        self.assertEqual(len(M_FILE), 72)
        self.assertEqual(struct.unpack_from("<6I", M_FILE), (24, 8, 32, 20, 52, 20))
        self.assertEqual(struct.unpack_from("<5I", M_FILE, 32), (4, 2058, 4103, 8198, 10248))

    def test_make(self):
        self.assertEqual(self.make(M_TEXT), (0, ""))
        self.assertEqual(self.file.read_bytes(), M_FILE)

    def test_delivered_file(self):
        self.assertEqual((ROOT / "nets" / "m.net").read_bytes(), M_FILE)

    def test_delivered_text(self):
        self.assertEqual(self.make((ROOT / "nets" / "m.txt").read_bytes()), (0, ""))
        self.assertEqual(self.file.read_bytes(), M_FILE)

    def test_list(self):
        listed = run("list", ROOT / "nets" / "m.net")
        self.assertEqual((listed.returncode, listed.stdout, listed.stderr), (0, M_TEXT, b""))

    def test_four_entries(self):
        self.assertEqual(len(M_FOUR_FILE), 84)
        self.assertEqual(struct.unpack_from("<8I", M_FOUR_FILE), (32, 8, 40, 20, 60, 20, 80, 4))
        self.assertEqual(struct.unpack_from("<5I", M_FOUR_FILE, 40), (4, 3 * 2097152 + 2058, 2097152 + 4103, 8198, 10248))
        self.assertEqual(self.make(M_FOUR_TEXT), (0, ""))
        self.assertEqual(self.file.read_bytes(), M_FOUR_FILE)
        listed = run("list", self.file)
        self.assertEqual((listed.returncode, listed.stdout, listed.stderr), (0, M_FOUR_TEXT, b""))

    def test_standard_input_and_output(self):
        made = run("make", "-", "-", given=M_TEXT)
        self.assertEqual((made.returncode, made.stdout, made.stderr), (0, M_FILE, b""))
        listed = run("list", "-", given=M_FILE)
        self.assertEqual((listed.returncode, listed.stdout, listed.stderr), (0, M_TEXT, b""))


class RoundTrips(InFolder):
    """Text and file turn into each other."""

    def both_ways(self, data, *options):
        """The listed text makes the same file, and its list is the same text."""
        text = netfile.read_net(data).to_text().encode("ascii")
        self.assertEqual(self.make(text, *options), (0, ""))
        self.assertEqual(self.file.read_bytes(), data)
        self.assertEqual(netfile.read_net(self.file.read_bytes()).to_text().encode("ascii"), text)

    def test_random_legal_nets(self):
        chance = random.Random(1)
        for _ in range(200):
            nodes = chance.randint(1, 1024)
            objects = chance.randint(0, nodes - 1)
            words = [
                chance.randrange(nodes) * 2048 + chance.randrange(objects, nodes) * 2 + chance.randrange(2)
                for _ in range(chance.choice((0, 1, 5, 100)))
            ]
            questions = [(chance.randrange(65536), chance.randrange(65536)) for _ in range(chance.choice((0, 1, 20)))]
            self.both_ways(file_of(objects, nodes - objects, words, questions))
            entered = [chance.randrange(4) * 2097152 + word for word in words]
            self.both_ways(file_of(objects, nodes - objects, entered, questions, chance.randrange(16)))

    def test_random_illegal_nets(self):
        chance = random.Random(2)
        for _ in range(200):
            counts = [chance.choice((0, 1, 7, 1024, 4294967295)) for _ in range(2)]
            words = [chance.randrange(2**32) for _ in range(chance.choice((0, 1, 5, 100)))]
            questions = [(chance.randrange(65536), chance.randrange(65536)) for _ in range(chance.choice((0, 1, 20)))]
            self.both_ways(file_of(*counts, words, questions), "--unchecked")
            self.both_ways(file_of(*counts, words, questions, chance.randrange(2**32)), "--unchecked")

    def test_extremes(self):
        self.both_ways(file_of(0, 0, [], []))
        self.both_ways(file_of(1024, 0, [], []))
        self.both_ways(file_of(0, 1024, [1023 * 2048 + 1023 * 2 + 1], [(65535, 65535)]))
        self.both_ways(file_of(1, 1, [2] * 8000, [(0, 1)] * 184))
        self.both_ways(file_of(1, 1, [2**32 - 1, 0, 1], []), "--unchecked")

    def test_extremes_with_origins(self):
        for origins in range(16):
            self.both_ways(file_of(0, 0, [], [], origins))
        self.both_ways(file_of(0, 1024, [4 * 2097152 - 1], [(65535, 65535)], 15))
        self.both_ways(file_of(1, 1, [3 * 2097152 + 2] * 8000, [(0, 1)] * 181, 8))
        self.both_ways(file_of(1, 1, [2**32 - 1, 4 * 2097152, 0, 1], [], 2**32 - 1), "--unchecked")
        self.both_ways(file_of(1, 1, [], [], 16), "--unchecked")

    def test_accessories(self):
        data = (ROOT / "nets" / "accessories.net").read_bytes()
        self.both_ways(data)
        self.assertEqual(self.make((ROOT / "nets" / "accessories.txt").read_bytes()), (0, ""))
        self.assertEqual(self.file.read_bytes(), data)

    def test_illegal_words_are_listed(self):
        listed = run("list", "-", given=file_of(1, 1, [2**32 - 1, 1024 * 2048 + 2, 0], []))
        self.assertEqual(listed.returncode, 0)
        self.assertEqual(listed.stdout, b"objects 1\nkinds 1\n2097151 is-not 1023\n1024 is 1\n0 is 0\n")

    def test_origins_are_listed(self):
        cases = [(0, b"none"), (1, b"0"), (8, b"3"), (15, b"0 1 2 3"), (16, b"4"), (2**31 + 9, b"0 3 31")]
        for origins, written in cases:
            listed = run("list", "-", given=file_of(1, 1, [2, 2097154, 2**32 - 1], [], origins))
            self.assertEqual(listed.returncode, 0)
            links = b"0 is 1\n0 is 1 origin 1\n1023 is-not 1023 origin 2047\n"
            self.assertEqual(listed.stdout, b"objects 1\nkinds 1\norigins " + written + b"\n" + links)

    def test_origins_are_written(self):
        cases = [(b"none", 0), (b"0", 1), (b"3", 8), (b"3 0 002", 13), (b"0 1 2 3", 15)]
        for written, origins in cases:
            text = b"origins " + written + b" # to use\n" + COUNTS + b"0 is 2 origin 0\n0 is 2\n5 is-not 5\torigin 3\nask 0 2\n"
            self.assertEqual(self.make(text), (0, ""))
            self.assertEqual(self.file.read_bytes(), file_of(2, 4, [4, 4, 3 * 2097152 + 10251], [(0, 2)], origins))

    def test_without_the_line_there_are_three_entries(self):
        text = M_FOUR_TEXT.replace(b"origins 0 1 3\n", b"").replace(b" origin 3", b"").replace(b" origin 1", b"")
        self.assertEqual(self.make(text), (0, ""))
        self.assertEqual(self.file.read_bytes(), M_FILE)

    def test_the_help_shows_a_text(self):
        helped = run("make", "--help")
        self.assertEqual((helped.returncode, helped.stderr), (0, b""))
        shown = helped.stdout.split(b"One line of the text", 1)[1].splitlines()
        text = b"\n".join(line[:18] for line in shown if line.startswith(b"  "))
        self.assertEqual(self.make(text), (0, ""))
        self.assertEqual(self.file.read_bytes(), file_of(2, 4, [4, 4103, 2097152 + 8198], [(0, 4)], 11))

    def test_layout_of_the_text_is_free(self):
        text = b"# \xff\xfe name\r\n\n\tkinds\t4 # four\r\nask 3 0\nobjects 002#two\n  0   is 2"
        self.assertEqual(self.make(text), (0, ""))
        self.assertEqual(self.file.read_bytes(), file_of(2, 4, [4], [(3, 0)]))


COUNTS = b"objects 2\nkinds 4\n"

# Text, line at fault, part of the message.
BAD_TEXTS = [
    (COUNTS + b"\nlinks 3\n", 4, "unknown word `links`"),
    (COUNTS + b"0 was 2\n", 3, "unknown word `was`"),
    (COUNTS + b"Objects 3\n", 3, "unknown word `Objects`"),
    (COUNTS + b"\xc3\xa9 2\n", 3, "unknown word `\\xc3\\xa9`"),
    (b"objects two\n", 1, "`two` is not a decimal number"),
    (b"objects -2\n", 1, "`-2` is not a decimal number"),
    (b"kinds 0x4\n", 1, "`0x4` is not a decimal number"),
    (b"kinds 1_0\n", 1, "`1_0` is not a decimal number"),
    (COUNTS + b"a is 2\n", 3, "tail `a` is not a decimal number"),
    (COUNTS + b"0 is-not b\n", 3, "head `b` is not a decimal number"),
    (COUNTS + b"ask 0 +4\n", 3, "`+4` is not a decimal number"),
    (COUNTS + b"6 is 2\n", 3, "tail 6 is outside the net"),
    (COUNTS + b"0 is 2\n0 is 6\n", 4, "head 6 is outside the net"),
    (COUNTS + b"0 is 1\n", 3, "head 1 is an object"),
    (COUNTS + b"0 is-not 0\n", 3, "head 0 is an object"),
    (COUNTS + b"2097152 is 2\n", 3, "tail 2097152 is too large"),
    (COUNTS + b"0 is 1024\n", 3, "head 1024 is too large"),
    (COUNTS + b"9" * 5000 + b" is 2\n", 3, "is too large"),
    (b"objects 1000\n# more\nkinds 25\n", 3, "1025 nodes"),
    (b"kinds 1025\n", 1, "1025 nodes"),
    (b"objects 4294967296\n", 1, "objects 4294967296 is too large"),
    (b"objects 4294967295\nkinds 1\n", 1, "4294967295 nodes"),
    (COUNTS + b"objects 2\n", 3, "a second `objects` line"),
    (COUNTS + b"0 is 2\nkinds 4\n", 4, "a second `kinds` line"),
    (b"", 1, "without a line `objects NUMBER`"),
    (b"# nothing\n\n", 2, "without a line `objects NUMBER`"),
    (b"objects 2\nask 0 2\n", 2, "without a line `kinds NUMBER`"),
    (b"kinds 2", 1, "without a line `objects NUMBER`"),
    (b"objects 2\n0 is 2\nkinds 4\n", 2, "must be a line `kinds NUMBER`"),
    (b"0 is 2\n" + COUNTS, 1, "must be a line `objects NUMBER`"),
    (COUNTS + b"0 is 2\n" * 8185, 8187, "more than 32768 bytes"),
    (COUNTS + b"0 is 2\n" * 8184 + b"# full\nask 0 2\n", 8188, "more than 32768 bytes"),
    (COUNTS + b"ask 65536 2\n", 3, "question number 65536 is too large"),
    (COUNTS + b"ask 0 65536\n", 3, "question number 65536 is too large"),
    (COUNTS + b"0 is\n", 3, "ends after `is`"),
    (COUNTS + b"0\n", 3, "ends after `0`"),
    (COUNTS + b"ask 0\n", 3, "ends after `0`"),
    (b"objects\n", 1, "ends after `objects`"),
    (COUNTS + b"0 is 2 3\n", 3, "`3` stands after the end"),
    (COUNTS + b"ask 0 2 3\n", 3, "`3` stands after the end"),
    (b"objects 2 3\n", 1, "`3` stands after the end"),
    (COUNTS + b"origins 0\n0 is 2\n0 is 2 origin 4\n", 5, "origin 4 is too large, the largest is 3"),
    (COUNTS + b"origins 0 4\n", 3, "origin 4 is too large, the largest is 3"),
    (COUNTS + b"origins 0\n0 is 2 origin 2048\n", 4, "origin 2048 is too large"),
    (COUNTS + b"origins 32\n", 3, "origin 32 is too large"),
    (COUNTS + b"origins 0\n0 is 2 origin user\n", 4, "origin `user` is not a decimal number"),
    (COUNTS + b"origins 0 all\n", 3, "origin `all` is not a decimal number"),
    (COUNTS + b"origins none 1\n", 3, "origin `none` is not a decimal number"),
    (COUNTS + b"origins 1 0 1\n", 3, "origin 1 stands twice"),
    (COUNTS + b"origins\n", 3, "ends after `origins`"),
    (COUNTS + b"origins 0\n0 is 2 origin\n", 4, "ends after `origin`"),
    (COUNTS + b"origins 0\n0 is 2 origin 1 2\n", 4, "`2` stands after the end"),
    (COUNTS + b"origins 0\n0 is 2 origins 1\n", 4, "`origins` stands after the end"),
    (COUNTS + b"origins 0\nask 0 2 origin 1\n", 4, "`origin` stands after the end"),
    (COUNTS + b"origins 0\norigins 0\n", 4, "a second `origins` line"),
    (COUNTS + b"0 is 2\norigins 0\n", 4, "`origins` must stand before the first link"),
    (COUNTS + b"0 is 2 origin 1\n", 3, "must be a line `origins NUMBER ..`"),
    (COUNTS + b"origins 0\n6 is 2 origin 1\n", 4, "tail 6 is outside the net"),
    (COUNTS + b"origins 0\n0 is 1 origin 1\n", 4, "head 1 is an object"),
    (COUNTS + b"origins 0\n1024 is 2\n", 4, "tail 1024 is too large, the largest is 1023"),
    (COUNTS + b"origins 0\n" + b"0 is 2\n" * 8182, 8185, "more than 32768 bytes"),
    (COUNTS + b"ask 0 2\n" * 8182 + b"origins 0\n", 8185, "more than 32768 bytes"),
    (COUNTS + b"name 5 last\nname 6 behind\n", 4, "node 6 is outside the net, which has 6 nodes"),
    (COUNTS + b"name two average\n", 3, "node `two` is not a decimal number"),
    (COUNTS + b"name 2 average\nname 2 mean\n", 4, "a second name for node 2"),
    (COUNTS + b"name 2 average\nname 3 average\n", 4, "`average` is the name of node 2"),
    (COUNTS + b"name 2 # average\n", 3, "ends after `2`"),
    (b"objects 2\nname 0 trace\nkinds 4\n", 2, "before the first name there must be a line `kinds NUMBER`"),
    (COUNTS + b"name 2 \xff\n", 3, "the name is not UTF-8"),
    (COUNTS + b"name 2 a\x1bb\n", 3, "cannot be printed"),
    (COUNTS + b"origin 4 shop\n", 3, "origin 4 is too large, the largest is 3"),
    (COUNTS + b"origin 3\n", 3, "ends after `3`"),
    (COUNTS + b"origin 1 shop\norigin 1 lab\n", 4, "a second name for origin 1"),
    (COUNTS + b"origin 3 user\n", 3, "`user` is the name of origin 2"),
]

# Parts of the messages that --unchecked does away with.
LET_THROUGH = ("outside the net", "is an object", "1025 nodes", "4294967295 nodes", "origin 4 is too large")


class Refusals(InFolder):
    """A bad text is refused with its line, and nothing is written."""

    def refused(self, line, message, text, *options):
        """Refused with the line and message; the folder is as before."""
        status, errors = self.make(text, *options)
        self.assertEqual(status, 1)
        self.assertTrue(errors.startswith(f"netfile.py: line {line}: "), errors)
        self.assertIn(message, errors)
        self.assertEqual(errors.count("\n"), 1)

    def test_no_file_is_made(self):
        for text, line, message in BAD_TEXTS:
            with self.subTest(message=message, line=line):
                self.refused(line, message, text)
                self.assertEqual(os.listdir(self.folder), ["net.txt"])

    def test_an_old_file_is_kept(self):
        self.file.write_bytes(OLD)
        for text, line, message in BAD_TEXTS:
            with self.subTest(message=message, line=line):
                self.refused(line, message, text)
                self.assertEqual(self.file.read_bytes(), OLD)
                self.assertEqual(sorted(os.listdir(self.folder)), ["net.net", "net.txt"])

    def test_what_fits_no_bit_field_is_refused_unchecked(self):
        for text, line, message in BAD_TEXTS:
            if not any(part in message for part in LET_THROUGH):
                with self.subTest(message=message, line=line):
                    self.refused(line, message, text, "--unchecked")
                    self.assertEqual(os.listdir(self.folder), ["net.txt"])

    def test_illegal_nets_pass_unchecked(self):
        cases = [
            (COUNTS + b"6 is 2\n0 is 1\n0 is-not 1023\n2097151 is 6\n", (2, 4, [12292, 2, 2047, 4294965260], [])),
            (b"objects 4294967295\nkinds 1\n", (4294967295, 1, [], [])),
            (COUNTS + b"origins 4\n6 is 0 origin 4\n1023 is 1 origin 2047\n", (2, 4, [8400896, 4294965250], [], 16)),
        ]
        for text, parts in cases:
            self.assertEqual(self.make(text, "--unchecked"), (0, ""))
            self.assertEqual(self.file.read_bytes(), file_of(*parts))

    def test_as_a_program(self):
        made = run("make", "-", "-", given=COUNTS + b"0 is 1\n")
        self.assertEqual((made.returncode, made.stdout), (1, b""))
        self.assertEqual(made.stderr, b"netfile.py: line 3: head 1 is an object, and only kinds can be heads\n")


class Files(InFolder):
    """What happens to the files around a run."""

    def test_an_old_file_is_replaced(self):
        self.file.write_bytes(OLD)
        self.assertEqual(self.make(M_TEXT), (0, ""))
        self.assertEqual(self.file.read_bytes(), M_FILE)
        self.assertEqual(sorted(os.listdir(self.folder)), ["net.net", "net.txt"])

    def test_text_and_file_are_different_files(self):
        self.text.write_bytes(M_TEXT)
        status, errors = self.call("make", self.text, self.text)
        self.assertEqual((status, self.text.read_bytes()), (1, M_TEXT))
        self.assertIn("same file", errors)

    def test_only_a_plain_file_is_replaced(self):
        self.file.mkdir()
        self.assertEqual(self.make(M_TEXT)[0], 1)
        self.assertTrue(self.file.is_dir())
        self.assertEqual(sorted(os.listdir(self.folder)), ["net.net", "net.txt"])

    def test_a_link_to_a_file_stays_a_link(self):
        real = self.folder / "real.net"
        real.write_bytes(OLD)
        self.file.symlink_to(real)
        self.assertEqual(self.make(M_TEXT), (0, ""))
        self.assertTrue(self.file.is_symlink())
        self.assertEqual(real.read_bytes(), M_FILE)

    def test_missing_files(self):
        self.assertEqual(self.call("make", self.text, self.file)[0], 1)
        self.assertEqual(self.call("list", self.file)[0], 1)
        self.text.write_bytes(M_TEXT)
        self.assertEqual(self.call("make", self.text, self.folder / "none" / "net.net")[0], 1)
        self.assertEqual(os.listdir(self.folder), ["net.txt"])


def with_number(offset, number, file=M_FILE):
    """A file, M if none is given, with one number of the contents replaced."""
    return file[:offset] + number.to_bytes(4, "little") + file[offset + 4:]


NAMED_M = M_TEXT.replace(b"0 is 2\n", b"""origin 1 the lab
name 0 trace 0
name 2 a truncated average
name 3 unbiased
name 5 a r\xc3\xb6unded average
0 is 2
""", 1)

LISTED_M = """objects 2
kinds 4
origin 1 the lab
name 0 trace 0
name 2 a truncated average
name 3 unbiased
name 5 a röunded average
0 is 2        # trace 0 is a truncated average
1 is 5        # 1 is a röunded average
2 is-not 3    # a truncated average is not unbiased
4 is 3        # 4 is unbiased
5 is 4        # a röunded average is 4
ask 0 4       # is trace 0 4?
ask 1 4       # is 1 4?
ask 2 5       # is a truncated average a röunded average?
ask 3 4       # is what is unbiased 4?
ask 3 0       # is what is unbiased trace 0?
"""

PRINTED = b"""0 4 no 5
  1  0 is 2      link 0
  2  2 is-not 3  link 2 origin 2
  3  0 is-not 3  3.4 from 1 2
  4  4 is 3      link 3 origin 1
  5  3 is 3      3.1
  6  3 is-not 2  3.3 from 2
 10  2 is 3      link 12 origin 3
1 4 yes 1
2 5 both 5
3 4 none 4
3 0 refused 4
file 9 3
net 3 1 2
0 4 4 0 3 7 6 0
0 is 2
"""

TOLD = """no: trace 0 is not 4 (5 rounds)
  1  trace 0 is a truncated average (link 0, factory)
  2  a truncated average is not unbiased (link 2, user)
  3  trace 0 is not unbiased (rule 3.4, from 1 and 2)
  4  4 is unbiased (link 3, the lab)
  5  what is unbiased is unbiased (rule 3.1)
  6  what is unbiased is not a truncated average (rule 3.3, from 2)
 10  a truncated average is unbiased (link 12, origin 3)
yes: 1 is 4 (1 round)
both: a truncated average is a röunded average, and it is not (5 rounds)
none: the net does not say whether what is unbiased is 4 (4 rounds)
refused: 3 0 is no question of this net (number 4)
file 9 3
net 3 1 2
0 4 4 0 3 7 6 0
0 is 2
"""


class Naming(InFolder):
    """Names of nodes and origins, and what is told with them."""

    def test_names_go_into_no_file(self):
        self.assertEqual(self.make(NAMED_M), (0, ""))
        self.assertEqual(self.file.read_bytes(), M_FILE)

    def test_list(self):
        self.make(NAMED_M)
        listed = run("list", "--names", self.text, self.file)
        self.assertEqual((listed.returncode, listed.stdout.decode(), listed.stderr), (0, LISTED_M, b""))
        self.assertEqual(self.make(listed.stdout), (0, ""))
        self.assertEqual(self.file.read_bytes(), M_FILE)
        self.assertEqual(run("list", "--names", self.text, self.file).stdout, listed.stdout)
        self.assertEqual(run("list", self.file).stdout, M_TEXT)

    def test_names_of_another_net(self):
        self.make(NAMED_M)
        self.file.write_bytes(file_of(2, 5, [], []))
        message = "netfile.py: the names are for 2 objects and 4 kinds, and the net has 2 objects and 5 kinds\n"
        for command in ("list", "draw"):
            self.assertEqual(self.call(command, "--names", self.text, self.file), (1, message))
        self.assertEqual(run("tell", "-").returncode, 1)

    def test_tell(self):
        self.text.write_bytes(NAMED_M)
        told = run("tell", self.text, given=PRINTED)
        self.assertEqual((told.returncode, told.stdout.decode(), told.stderr), (0, TOLD, b""))
        self.assertEqual(run("tell", self.text).stdout, b"")

    def test_links_of_the_nets_are_told(self):
        for name in ("m", "m-user", "accessories"):
            text = ROOT / "nets" / f"{name}.txt"
            listed = run("list", "--names", text, text.with_suffix(".net")).stdout.decode()
            told = {tuple(line.split()) for line in listed.splitlines()}
            links = [line for line in text.read_text(encoding="utf-8").splitlines() if line[:1].isdigit()]
            self.assertEqual(len(links), len(netfile.read_net(text.with_suffix(".net").read_bytes()).words))
            for line in links:
                self.assertIn(tuple(line.split()), told)

    def test_answers_in_the_tables_of_m(self):
        printed = run("tables", ROOT / "nets" / "m.txt").stdout.decode()
        answers = [" ".join(found) for found in re.findall(r"^\| (\d+ \d+) \| [^|]* \| (\w+)", printed, re.M)]
        asked = (ROOT / "crates" / "ask" / "stdout").read_text(encoding="utf-8").splitlines()
        self.assertEqual(answers, [line.rsplit(" ", 1)[0] for line in asked])

    def test_tables_of_the_page(self):
        page = (ROOT / "nets" / "README.md").read_text(encoding="utf-8")
        printed = {name: run("tables", ROOT / "nets" / f"{name}.txt").stdout.decode() for name in ("m", "m-user", "accessories")}
        self.assertIn(printed["m"], page)
        self.assertIn(printed["accessories"], page)
        blocks = {block for text in printed.values() for block in text.rstrip("\n").split("\n\n")}
        for block in page.split("\n\n"):
            if block.startswith("|"):
                self.assertIn(block, blocks)


def supported(objects, nodes, links):
    """The statements, tail, sign and head, in the smallest set that holds the links and is closed under rules (3.1) to (3.5)."""
    kinds = range(objects, nodes)
    found = set(links) | {(kind, 0, kind) for kind in kinds}
    while True:
        new = {(y, 1, x) for x, sign, y in found if sign and x in kinds}
        for x, first, y in found:
            new |= {(x, second, z) for tail, second, z in found if not first and tail == y}
            new |= {(x, 1, z) for z, second, head in found if first and not second and head == y and x not in kinds and z in kinds}
        if new <= found:
            return found
        found |= new


class Search(unittest.TestCase):
    """The search for reasons, held against the rules."""

    def test_random_nets(self):
        chance = random.Random(3)
        for _ in range(150):
            objects, kinds = chance.randrange(3), chance.randint(1, 5)
            nodes, net = objects + kinds, netfile.Net()
            net.counts = {"objects": objects, "kinds": kinds}
            net.origins = chance.choice((None, 1, 3))
            for _ in range(chance.randrange(9)):
                word = chance.randrange(nodes) * 2048 + chance.randrange(objects, nodes) * 2 + chance.randrange(2)
                net.words.append(word + (0 if net.origins is None else chance.randrange(2) * 2097152))
            links = net.read_links()
            statements = supported(objects, nodes, links.values())
            for x in range(nodes):
                for y in range(objects, nodes):
                    for sign in (0, 1):
                        way = netfile.reason(net, x, y, sign)
                        self.assertEqual(way is not None, (x, sign, y) in statements)
                        if way is not None:
                            self.is_path(links, *way, x, y, sign)

    def is_path(self, links, nodes, indices, x, y, sign):
        """The nodes go from x to y over the links: with the arrows up to the one link "is not", against them behind it."""
        self.assertEqual((nodes[0], nodes[-1], len(nodes)), (x, y, len(indices) + 1))
        crossed = 0
        for near, far, index in zip(nodes, nodes[1:], indices):
            tail, link_sign, head = links[index]
            ends = {(near, far), (far, near)} if link_sign else {(far, near)} if crossed else {(near, far)}
            self.assertIn((tail, head), ends)
            crossed += link_sign
        self.assertEqual(crossed, sign)


class Pictures(InFolder):
    """The graph of a net."""

    def draw(self, data, *options):
        """The lines of the graph of a net file."""
        drawn = run("draw", "-", *options, given=data)
        self.assertEqual((drawn.returncode, drawn.stderr), (0, b""))
        return [line.strip() for line in drawn.stdout.decode().splitlines()]

    def test_delivered_picture(self):
        drawn = run("draw", ROOT / "nets" / "m.net", "--names", ROOT / "nets" / "m.txt", "--about", 0, 4)
        self.assertEqual(drawn.stdout, (ROOT / "docs" / "pictures" / "net-m-mean.dot").read_bytes())

    def test_without_names_and_question(self):
        lines = self.draw(M_FILE)
        self.assertIn('n0 [label="0", style=filled, fillcolor="#fff6df", color="#c9a44a"];', lines)
        self.assertIn('n2 [label="2"];', lines)
        self.assertIn("n0 -> n2;", lines)
        self.assertIn('n2 -> n3 [color="#c62828", style=dashed, arrowhead=tee];', lines)
        self.assertFalse(any("penwidth" in line or line.startswith("label") for line in lines))

    def test_reasons_are_marked(self):
        cases = [((0, 4), [(0, 2), (2, 3), (4, 3)]), ((1, 4), [(1, 5), (5, 4)]), ((2, 5), [(2, 3), (4, 3), (5, 4)]), ((3, 4), []), ((4, 4), [])]
        for about, links in cases:
            marked = [line.split(" [")[0] for line in self.draw(M_FILE, "--about", *about) if "penwidth" in line]
            self.assertEqual(marked, [f"n{tail} -> n{head}" for tail, head in links])
        both = self.draw(file_of(1, 2, [2, 5, 2048 + 4], []), "--about", 0, 1)
        self.assertIn('label="0 is 1\\n0 is not 1\\n"; labelloc=t; fontname="Helvetica,Arial,sans-serif";', both)

    def test_links_that_are_not_read_are_pale(self):
        lines = self.draw((ROOT / "nets" / "m-user.net").read_bytes(), "--about", 0, 4)
        self.assertIn('n0 -> n4 [color="#cccccc"];', lines)
        self.assertIn('label="0 is not 4\\n"; labelloc=t; fontname="Helvetica,Arial,sans-serif";', lines)

    def test_a_large_net_is_drawn_about_a_question(self):
        data = (ROOT / "nets" / "accessories.net").read_bytes()
        first = self.draw(data)
        self.assertEqual(first, self.draw(data, "--about", 0, 22))
        nodes = {line.split(" ")[0] for line in first if " [label" in line}
        self.assertTrue({"n0", "n13", "n21", "n22"} <= nodes)
        self.assertNotIn("n63", nodes)
        self.assertEqual(len([line for line in self.draw(data, "--whole") if " -> " in line]), 124)

    def test_refusals(self):
        self.file.write_bytes(M_FILE)
        for x, y in ((6, 4), (0, 1), (0, 6), (-1, 4)):
            self.assertEqual(self.call("draw", self.file, "--about", x, y), (1, f"netfile.py: {x} {y} is no question of this net\n"))
        self.file.write_bytes(file_of(0, 41, [], []))
        self.assertIn("--about X Y", self.call("draw", self.file)[1])
        self.file.write_bytes(file_of(1, 1, [0], []))
        self.assertEqual(self.call("draw", self.file), (1, "netfile.py: the net has an illegal link from 0 to 0\n"))
        self.file.write_bytes(file_of(1, 1024, [], []))
        self.assertIn("1025 nodes", self.call("draw", self.file, "--whole")[1])

    def test_without_graphviz(self):
        command = [sys.executable, str(TOOL), "draw", "-", "--svg"]
        drawn = subprocess.run(command, input=M_FILE, capture_output=True, check=False, env={"PATH": str(self.folder)})
        self.assertEqual((drawn.returncode, drawn.stdout), (1, b""))
        self.assertEqual(drawn.stderr, b"netfile.py: --svg needs the program `dot` of Graphviz, which is not installed\n")

    @unittest.skipUnless(shutil.which("dot"), "Graphviz is not installed")
    def test_with_graphviz(self):
        drawn = run("draw", "-", "--svg", given=M_FILE)
        self.assertEqual((drawn.returncode, drawn.stderr), (0, b""))
        self.assertIn(b"<svg", drawn.stdout)

    def test_a_name_is_quoted(self):
        self.text.write_bytes(COUNTS + b'name 2 the "so-called" \\N\n')
        self.assertIn('n2 [label="2  the \\"so-called\\" \\\\N"];', self.draw(M_FILE, "--names", self.text))


class Malformed(InFolder):
    """The place of the first fault of a malformed file."""

    CASES = [
        (b"", 3),
        (M_FILE[:23], 3),
        (M_FILE[:24], 0),
        (M_FILE[:31], 0),
        (M_FILE[:32], 1),
        (M_FILE[:51], 1),
        (M_FILE[:52], 2),
        (M_FILE[:71], 2),
        (M_FILE + b"\0", 2),
        (M_FILE + bytes(4), 2),
        (M_FILE + bytes(32768 - 72), 2),
        (M_FILE + bytes(32769 - 72), 3),
        (file_of(1, 1, [2] * 8184, []) + b"\0", 3),
        (with_number(0, 23), 0),
        (with_number(0, 32), 1),
        (with_number(0, 40), 0),
        (with_number(4, 4), 0),
        (with_number(4, 12), 0),
        (with_number(4, 2**32 - 16), 0),
        (with_number(8, 36), 1),
        (with_number(12, 18), 1),
        (with_number(12, 44), 1),
        (with_number(12, 2**32 - 4), 1),
        (with_number(12, 16), 2),
        (with_number(12, 40), 2),
        (with_number(16, 48), 2),
        (with_number(20, 18), 2),
        (with_number(20, 16), 2),
        (with_number(20, 24), 2),
        (with_number(20, 2**32 - 52), 2),
        (bytes(24), 0),
        (M_FOUR_FILE[:23], 3),
        (M_FOUR_FILE[:24], 3),
        (M_FOUR_FILE[:31], 3),
        (M_FOUR_FILE[:32], 0),
        (M_FOUR_FILE[:39], 0),
        (M_FOUR_FILE[:40], 1),
        (M_FOUR_FILE[:59], 1),
        (M_FOUR_FILE[:60], 2),
        (M_FOUR_FILE[:79], 2),
        (M_FOUR_FILE[:80], 4),
        (M_FOUR_FILE[:83], 4),
        (M_FOUR_FILE + b"\0", 4),
        (M_FOUR_FILE + bytes(4), 4),
        (M_FOUR_FILE + bytes(32768 - 84), 4),
        (M_FOUR_FILE + bytes(32769 - 84), 3),
        (with_number(0, 24, M_FOUR_FILE), 1),
        (with_number(0, 31, M_FOUR_FILE), 0),
        (with_number(4, 4, M_FOUR_FILE), 0),
        (with_number(8, 32, M_FOUR_FILE), 1),
        (with_number(12, 18, M_FOUR_FILE), 1),
        (with_number(16, 56, M_FOUR_FILE), 2),
        (with_number(20, 18, M_FOUR_FILE), 2),
        (with_number(20, 28, M_FOUR_FILE), 2),
        (with_number(20, 24, M_FOUR_FILE), 4),
        (with_number(20, 16, M_FOUR_FILE), 4),
        (with_number(24, 60, M_FOUR_FILE), 4),
        (with_number(24, 84, M_FOUR_FILE), 4),
        (with_number(28, 0, M_FOUR_FILE), 4),
        (with_number(28, 8, M_FOUR_FILE) + bytes(4), 4),
        (with_number(28, 3, M_FOUR_FILE)[:83], 4),
        (with_number(28, 5, M_FOUR_FILE) + b"\0", 4),
        (with_number(28, 2**32 - 80, M_FOUR_FILE), 4),
    ]

    def test_places(self):
        for data, place in self.CASES:
            with self.subTest(size=len(data), contents=data[:24].hex(), place=place):
                self.file.write_bytes(data)
                self.assertEqual(self.call("list", self.file), (1, f"file 9 {place}\n"))

    def test_as_a_program(self):
        listed = run("list", "-", given=M_FILE[:40])
        self.assertEqual((listed.returncode, listed.stdout, listed.stderr), (1, b"", b"file 9 1\n"))


if __name__ == "__main__":
    unittest.main()
