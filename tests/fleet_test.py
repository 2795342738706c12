#!/usr/bin/env python3
"""Runs `fleet` on whole inputs and compares what it prints with a reference of its own, byte for byte; and tests tools/pack and tools/add_totals.

What a turn prints and the state after it are proved. `main` has no contract: how much it reads, what it hands on and what it writes is seen here and nowhere else.
The reference takes the five rules of the request as they stand and knows nothing of marks or rows."""

import os
import pathlib
import random
import struct
import subprocess
import sys
import tempfile
import unittest

ROOT = pathlib.Path(__file__).resolve().parent.parent
ORIGIN = 2097152


def numbers(*values):
    return b"".join(struct.pack("<I", value) for value in values)


def net_file(objects, kinds, words, questions=0, origins=None):
    """A net file of three entries, or of four where a set of origins is given."""
    entries = 3 if origins is None else 4
    start = 8 * entries
    asked = start + 8 + 4 * len(words)
    end = asked + 4 * questions
    contents = [start, 8, start + 8, 4 * len(words), asked, 4 * questions]
    if origins is not None:
        contents += [end, 4]
    body = numbers(*contents, objects, kinds, *words) + bytes(4 * questions)
    return body if origins is None else body + numbers(origins)


def sized(body):
    return numbers(len(body)) + body


def word(tail, head, sign):
    return tail * 2048 + head * 2 + sign


# ── the reference ──


def supported(objects, kinds, words):
    """Everything that the links support, by the rules 3.1 to 3.5 until none gives more."""
    all_kinds = range(objects, objects + kinds)
    yes = {(kind, kind) for kind in all_kinds}
    no = set()
    for link in words:
        (no if link % 2 else yes).add((link // 2048, link // 2 % 1024))
    while True:
        more_yes = {(x, r) for x, q in yes for p, r in yes if p == q}
        more_no = {(q, p) for p, q in no if p >= objects}
        more_no |= {(x, r) for x, q in yes for p, r in no if p == q}
        more_no |= {(a, p) for a, q in no if a < objects for p, r in yes if r == q and p >= objects}
        if more_yes <= yes and more_no <= no:
            return yes, no
        yes |= more_yes
        no |= more_no


def figures(objects, kinds, words):
    yes, no = supported(objects, kinds, words)
    counts = [0] * 8
    for x in range(objects + kinds):
        for y in range(objects, objects + kinds):
            counts[(4 if x >= objects else 0) + ((x, y) in yes) + 2 * ((x, y) in no)] += 1
    return counts


def read_net(body):
    """What a net file says: o, k, its words and its set, which is none where the file has three entries; or nothing where it is malformed."""
    if len(body) < 24 or len(body) > 32768:
        return None
    entries = 4 if struct.unpack_from("<I", body)[0] == 32 else 3
    if len(body) < 8 * entries:
        return None
    at = 8 * entries
    bodies = []
    for n in range(entries):
        start, size = struct.unpack_from("<II", body, 8 * n)
        right = size == {0: 8, 3: 4}.get(n, size) and size % 4 == 0
        if start != at or not right or at + size > len(body):
            return None
        bodies.append(body[at : at + size])
        at += size
    if at != len(body):
        return None
    values = [[value for (value,) in struct.iter_unpack("<I", part)] for part in bodies]
    return values[0][0], values[0][1], values[1], values[3][0] if entries == 4 else None


def figured(body):
    """The number of a file's refusal, or its figures."""
    net = read_net(body)
    if net is None:
        return 9, None
    objects, kinds, words, origins = net
    nodes = objects + kinds
    if nodes > 1024:
        return 1, None
    if origins is not None and origins > 15:
        return 15, None
    top = 0 if origins is None else 3
    for link in words:
        plain = link % ORIGIN
        if link // ORIGIN > top or plain // 2048 >= nodes or not objects <= plain // 2 % 1024 < nodes:
            return 3, None
    if origins is not None:
        words = [link % ORIGIN for link in words if origins >> link // ORIGIN & 1]
    return 0, figures(objects, kinds, words)


def line(values):
    return " ".join(str(value) for value in values) + "\n"


def sheet(data):
    """All that is to be printed for an input."""
    known = {}
    lines = []
    sums = [0] * 8
    at = files = 0
    while at < len(data):
        head = data[at : at + 4]
        size = struct.unpack("<I", head)[0] if len(head) == 4 else None
        if files == 65536 or size is None or size > 32768 or at + 4 + size > len(data):
            lines.append("refused 14\n")
            break
        body = data[at + 4 : at + 4 + size]
        at += 4 + size
        files += 1
        if body not in known:
            known[body] = figured(body)
        number, counts = known[body]
        if number:
            lines.append(f"refused {number}\n")
        else:
            lines.append(line(counts))
            sums = [a + b for a, b in zip(sums, counts)]
    return ("".join(lines) + "total " + line(sums)).encode()


# ── the program ──


def command():
    """The program as tools/start starts it, without looking at its sources again."""
    return [str(ROOT / "crates" / "fleet" / "out" / "fleet")]


def printed(data, how=None):
    return subprocess.run(how or PROGRAM, input=data, capture_output=True, check=True).stdout


def in_pieces(data, chance):
    """The same where the input comes in pieces of 1 to 40 bytes."""
    with subprocess.Popen(PROGRAM, stdin=subprocess.PIPE, stdout=subprocess.PIPE) as program:
        at = 0
        while at < len(data):
            size = chance.randint(1, 40)
            os.write(program.stdin.fileno(), data[at : at + size])
            at += size
        program.stdin.close()
        return program.stdout.read()


M_WORDS = [4, 2058, 4103, 8198, 10248]
M = net_file(2, 4, M_WORDS, 5)
M_FROM_ALL = [4, 2058 + ORIGIN, 4103 + 2 * ORIGIN, 8198 + 3 * ORIGIN, 10248]

# A file of every outcome: figures of both forms, and 9, 1, 3 and 15.
ALL = [
    M,
    net_file(2, 4, M_FROM_ALL, 0, 15),
    net_file(2, 4, M_FROM_ALL, 2, 1),
    net_file(2, 4, M_FROM_ALL, 0, 0),
    net_file(2, 4, M_FROM_ALL, 0, 16),
    net_file(2, 4, [4 + 4 * ORIGIN], 0, 15),
    net_file(2, 4, M_FROM_ALL),
    net_file(0, 1, [1]),
    net_file(1, 1, [2]),
    net_file(1, 1, [0]),
    net_file(1024, 1, []),
    net_file(512, 512, []),
    net_file(0, 0, []),
    M[:-1],
    b"",
    bytes(23),
]


def drawn(chance):
    """A net file by chance: sometimes malformed, sometimes with a net that is refused."""
    objects, kinds = chance.randint(0, 4), chance.randint(0, 5)
    nodes = objects + kinds
    words = [word(chance.randrange(nodes), chance.randrange(objects, nodes), chance.randint(0, 1)) for _ in range(chance.randint(0, 9))] if kinds else []
    origins = chance.choice([None, None, chance.randint(0, 15), chance.randint(0, 17)])
    if origins is not None:
        words = [link + chance.randint(0, 3) * ORIGIN for link in words]
    if words and chance.random() < 0.1:
        words[chance.randrange(len(words))] = chance.getrandbits(32)
    body = bytearray(net_file(objects, kinds, words, chance.randint(0, 2), origins))
    if chance.random() < 0.15:
        body[chance.randrange(len(body))] = chance.randrange(256)
    return bytes(body)


class Sheets(unittest.TestCase):
    def same(self, data, name, how=None):
        self.assertEqual(printed(data, how), sheet(data), name)

    def test_net_m(self):
        self.assertEqual(printed(sized(M)), b"0 4 4 0 3 7 6 0\ntotal 0 4 4 0 3 7 6 0\n")

    def test_nothing(self):
        self.assertEqual(printed(b""), b"total 0 0 0 0 0 0 0 0\n")

    def test_every_outcome(self):
        self.assertEqual({figured(body)[0] for body in ALL}, {0, 1, 3, 9, 15})
        self.same(b"".join(map(sized, ALL)), "all")

    def test_cut_at_every_byte(self):
        data = b"".join(map(sized, [ALL[0], ALL[8], ALL[2], ALL[14]]))
        for size in range(len(data) + 1):
            self.same(data[:size], f"cut at {size}")

    def test_drawn(self):
        for seed in range(40):
            chance = random.Random(seed)
            data = b"".join(sized(drawn(chance)) for _ in range(chance.randint(0, 12)))
            self.same(data, f"seed {seed}")
            self.same(data + bytes(chance.randrange(256) for _ in range(chance.randint(1, 30))), f"seed {seed} with bytes behind")
            self.assertEqual(in_pieces(data, chance), sheet(data), f"seed {seed} in pieces")

    def test_lengths(self):
        largest = net_file(3, 1021, [8] * 8184)
        self.assertEqual(len(largest), 32768)
        zeros = bytes(32769)
        for data, name in [
            (sized(zeros[:32768]) + sized(M), "32,768 zeros"),
            (sized(zeros) + sized(M), "32,769 zeros"),
            (numbers(32769), "the length 32,769 alone"),
            (numbers(32768) + zeros[:32767], "32,768 less a byte"),
            (numbers(0xFFFFFFFF) + zeros, "the largest length"),
            (sized(M) + numbers(0), "a file of no bytes last"),
        ]:
            self.same(data, name)
        self.assertEqual(printed(sized(largest)), b"3062 1 0 0 1041420 1021 0 0\ntotal 3062 1 0 0 1041420 1021 0 0\n")

    def test_number_of_files(self):
        for count in 65535, 65536, 65537:
            self.same(sized(b"") * (count - 1) + sized(M), f"{count} files")
        self.same(sized(b"") * 65536 + b"\0", "65,536 files and a byte")

    def test_progress(self):
        data = sized(M) * 70 + b"\1"
        run = subprocess.run([ROOT / "fleet", "--progress"], input=data, capture_output=True, check=True)
        self.assertEqual(run.stdout, sheet(data))
        self.assertEqual(run.stderr, b"\r64 files\r70 files\n")
        self.same(data, "without", [ROOT / "fleet"])
        wrong = subprocess.run([ROOT / "fleet", "nets"], input=b"", capture_output=True, check=False)
        self.assertEqual((wrong.returncode, wrong.stdout), (2, b""))


class Tools(unittest.TestCase):
    def setUp(self):
        self.folder = tempfile.TemporaryDirectory()
        self.addCleanup(self.folder.cleanup)
        self.at = pathlib.Path(self.folder.name)

    def tool(self, name, *arguments, given=b"", status=0):
        run = subprocess.run([sys.executable, ROOT / "tools" / name, *arguments], input=given, capture_output=True, check=False)
        self.assertEqual(run.returncode, status, run.stderr)
        return run.stdout

    def put(self, name, data):
        path = self.at / name
        path.write_bytes(data)
        return str(path)

    def test_pack(self):
        names = [self.put(str(n), body) for n, body in enumerate(ALL)]
        data = b"".join(map(sized, ALL))
        self.assertEqual(self.tool("pack", *names), data)
        self.assertEqual(self.tool("pack", "--list", "-", given="\n".join(names).encode()), data)
        self.assertEqual(self.tool("pack"), b"")
        large = self.put("large", bytes(32769))
        self.assertEqual(self.tool("pack", names[0], large, names[0], status=1), sized(ALL[0]))
        self.assertEqual(self.tool("pack", str(self.at / "none"), status=1), b"")
        many = self.put("many", (names[14] + "\n").encode() * 65537)
        self.assertEqual(self.tool("pack", "--list", many, status=1), sized(b"") * 65536)

    def test_parts(self):
        """The sheets of parts of an input, added, are the sheet of the whole."""
        for seed in range(5):
            chance = random.Random(seed)
            files = [sized(drawn(chance)) for _ in range(9)]
            places = sorted(chance.choices(range(10), k=2))
            parts = [files[: places[0]], files[places[0] : places[1]], files[places[1] :]]
            sheets = [self.put(f"{seed}-{n}", printed(b"".join(part))) for n, part in enumerate(parts)]
            whole = printed(b"".join(files))
            self.assertEqual(self.tool("add_totals", *sheets), whole)
            joined = b"".join(pathlib.Path(path).read_bytes() for path in sheets)
            self.assertEqual(self.tool("add_totals", given=joined), whole)
            self.assertEqual(self.tool("add_totals", "--total", given=joined), whole.splitlines(keepends=True)[-1])

    def test_sheets_at_fault(self):
        self.assertEqual(self.tool("add_totals", given=b""), b"total 0 0 0 0 0 0 0 0\n")
        for wrong in [b"refused 14\ntotal 0 0 0 0 0 0 0 0\n", b"1 2 3\n", b"refused 9\n", b"total 1 2 3\n", b"\n", b"refused\n", b"0 0 0 0 0 0 0 -1\n"]:
            self.assertNotIn(b"total", self.tool("add_totals", given=wrong, status=1))
        for wrong in ["refused \u00b2\ntotal 0 0 0 0 0 0 0 0\n".encode(), b"0 1 0 0 0 0 0 0\ntotal 0 2 0 0 0 0 0 0\n", b"0 1 0 0 0 0 0 0\ntotal 0 0 0 0 0 0 0 0\n"]:
            self.assertNotIn(b"total", self.tool("add_totals", given=wrong, status=1))

    def test_every_sheet_is_whole(self):
        whole = b"0 1 0 0 0 0 0 0\ntotal 0 1 0 0 0 0 0 0\n"
        with tempfile.TemporaryDirectory() as folder:
            named = [os.path.join(folder, name) for name in ("one", "two")]
            for wrong in [b"", b"0 1 0 0 0 0 0 0\n", b"refused 9\n"]:
                for sheets in [(wrong, whole), (whole, wrong)]:
                    for path, sheet in zip(named, sheets):
                        pathlib.Path(path).write_bytes(sheet)
                    for words in [[], ["--total"]]:
                        self.assertNotIn(b"total", self.tool("add_totals", *words, *named, status=1))
        lines = sorted((whole + whole).splitlines(keepends=True))
        self.assertEqual(self.tool("add_totals", "--total", given=b"".join(lines)), b"total 0 2 0 0 0 0 0 0\n")
        self.assertEqual(self.tool("add_totals", "--total", given=b"".join(lines[2:])), b"total 0 2 0 0 0 0 0 0\n")

    def test_names_at_fault(self):
        self.tool("pack", "--list", "", status=1)
        self.tool("pack", "--list", "-", given=b"one\0two\n", status=1)


if __name__ == "__main__":
    subprocess.run([ROOT / "fleet"], stdin=subprocess.DEVNULL, stdout=subprocess.DEVNULL, check=True)
    PROGRAM = command()
    unittest.main()
