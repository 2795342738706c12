#!/usr/bin/env python3
"""Runs `why` on whole inputs and reads every derivation that it prints back, with a checker that knows the five rules, the net file and the form of the text, and nothing else.

What a turn prints is proved. `main` has no contract: how much it reads, what it hands on and what it writes is seen here and nowhere else.
The lines that are not indented have to be those that `ask` prints for the same file. The checker is tested too: of each derivation one thing after another is
spoilt, and what does not follow any more has to be refused."""

import os
import pathlib
import random
import re
import struct
import subprocess
import sys
import unittest

ROOT = pathlib.Path(__file__).resolve().parent.parent
STORED = ROOT / "tests" / "why"
ORIGIN = 2097152
IS, IS_NOT = 0, 1


# ── net files ──


def word(tail, head, sign, origin=0):
    return origin * ORIGIN + tail * 2048 + head * 2 + sign


def net_file(objects, kinds, words, questions, origins=None):
    """A net file of three entries, or of four where a set of origins is given."""
    bodies = [struct.pack("<2I", objects, kinds), struct.pack(f"<{len(words)}I", *words), b"".join(struct.pack("<2H", *pair) for pair in questions)]
    if origins is not None:
        bodies.append(struct.pack("<I", origins))
    contents, start = b"", 8 * len(bodies)
    for body in bodies:
        contents += struct.pack("<2I", start, len(body))
        start += len(body)
    return contents + b"".join(bodies)


class Net:
    """A net file that is not malformed, read as its form says; of one that is there is no net."""

    def __init__(self, data):
        entries = 4 if struct.unpack_from("<I", data)[0] == 32 else 3
        places = [struct.unpack_from("<2I", data, 8 * n) for n in range(entries)]
        bodies = [data[start : start + size] for start, size in places]
        self.objects, kinds = struct.unpack("<2I", bodies[0])
        self.nodes = self.objects + kinds
        self.words = [number for (number,) in struct.iter_unpack("<I", bodies[1])]
        self.questions = list(struct.iter_unpack("<2H", bodies[2]))
        self.origins = struct.unpack("<I", bodies[3])[0] if entries == 4 else None

    def is_kind(self, node):
        return self.objects <= node < self.nodes

    def origin(self, index):
        """Who entered a word; none where the file has no set of origins."""
        return None if self.origins is None else self.words[index] // ORIGIN

    def says(self, index):
        """The statement of a word: tail, sign and head; none where there is no such word or its origin is not in the set."""
        if index >= len(self.words):
            return None
        if self.origins is not None and not self.origins >> self.origin(index) & 1:
            return None
        plain = self.words[index] % ORIGIN
        return plain // 2048, plain % 2, plain // 2 % 1024


# ── the checker ──


class Wrong(Exception):
    """A text that is no derivation of the statement, or not of the form."""


NUMBER = "(0|[1-9][0-9]*)"
GROUND = rf"link {NUMBER}(?: origin {NUMBER})?|(3\.1)|(3\.3) from {NUMBER}|(3\.[245]) from {NUMBER} {NUMBER}"
LINE = re.compile(rf"  {NUMBER}  {NUMBER} (?:is {NUMBER}      |is-not {NUMBER}  )(?:{GROUND})")


def require(holds, message):
    if not holds:
        raise Wrong(message)


class Line:
    """A line as it is read: its number, its statement (tail, sign, head), and its ground: link with index and origin, or a rule with its lines."""

    def __init__(self, text):
        found = LINE.fullmatch(text)
        require(found, f"no line: {text!r}")
        number, tail, is_head, not_head, index, origin, one, three, from_three, two, first, second = found.groups()
        self.number = int(number)
        self.said = (int(tail), IS, int(is_head)) if is_head else (int(tail), IS_NOT, int(not_head))
        self.rule = one or three or two or "link"
        self.index = index and int(index)
        self.origin = origin and int(origin)
        self.cited = [int(each) for each in (from_three, first, second) if each]

    def text(self):
        """The line as `why` prints it."""
        (tail, sign, head), cited = self.said, " ".join(map(str, self.cited))
        ground = f"{self.rule} from {cited}" if cited else self.rule
        if self.rule == "link":
            ground = f"link {self.index}" + ("" if self.origin is None else f" origin {self.origin}")
        return f"  {self.number}  {tail} {('is', 'is-not')[sign]} {head}{(' ' * 6, ' ' * 2)[sign]}{ground}"


def follows(net, line, above):
    """Whether a line follows from its ground and the statements above it, by the five rules of the request: p, q and r are kinds, a is an object, x either."""
    if line.rule == "link":
        return net.says(line.index) == line.said and net.origin(line.index) == line.origin
    if not all(1 <= number <= len(above) for number in line.cited):
        return False
    premises = [above[number - 1] for number in line.cited]
    tail, sign, head = line.said
    if line.rule == "3.1":
        return sign == IS and tail == head and net.is_kind(tail)
    if line.rule == "3.3":
        return sign == IS_NOT and premises == [(head, IS_NOT, tail)] and net.is_kind(head) and net.is_kind(tail)
    middle = premises[0][2]
    if not (net.is_kind(middle) and net.is_kind(head)):
        return False
    if line.rule == "3.2":
        return sign == IS and premises == [(tail, IS, middle), (middle, IS, head)]
    if line.rule == "3.4":
        return sign == IS_NOT and premises == [(tail, IS, middle), (middle, IS_NOT, head)]
    return sign == IS_NOT and premises == [(head, IS, middle), (tail, IS_NOT, middle)] and not net.is_kind(tail)


def check_derivation(net, texts, statement):
    """Every line follows from lines strictly above it, and the last is the statement; if not, Wrong is raised."""
    above = []
    for text in texts:
        line = Line(text)
        require(line.number == len(above) + 1, f"not line {len(above) + 1}: {text!r}")
        require(follows(net, line, above), f"does not follow: {text!r}")
        above.append(line.said)
    require(above and above[-1] == statement, f"the last line is not {statement}")


def derivations(net, said, below):
    """The derivations below the line of a question, each with the statement that it has to derive; Wrong where others stand there than the answer asks for."""
    tail, head, answer = said.split(" ")[:3]
    statements = {"yes": [IS], "no": [IS_NOT], "both": [IS, IS_NOT]}.get(answer)
    if statements is None:
        require(below == {"none": ["  the net is silent"], "refused": []}[answer], f"below {said!r}: {below}")
        return []
    starts = [n for n, text in enumerate(below) if text.startswith("  1  ")]
    require(starts[:1] == [0] and len(starts) == len(statements), f"below {said!r} there are {len(starts)} derivations")
    return [(below[start:end], (int(tail), sign, int(head))) for start, end, sign in zip(starts, starts[1:] + [len(below)], statements)]


def check_text(data, printed, asked):
    """All that was printed for a file. Gives its derivations, each with its net and its statement."""
    lines = printed.decode().split("\n")
    require(lines.pop() == "", "the last line does not end")
    heads = [n for n, text in enumerate(lines) if not text.startswith(" ")]
    require("".join(lines[n] + "\n" for n in heads).encode() == asked, "the lines that are not indented are not those of ask")
    require(heads[:1] == [0] or not lines, "an indented line stands in front")
    if asked.startswith((b"file ", b"net ")):
        require(printed == asked, "something stands below a refusal")
        return []
    net, found = Net(data), []
    require(len(heads) == len(net.questions), "not a line for each question")
    for (x, y), start, end in zip(net.questions, heads, heads[1:] + [len(lines)]):
        require(lines[start].startswith(f"{x} {y} "), f"not the question {x} {y}: {lines[start]!r}")
        for texts, statement in derivations(net, lines[start], lines[start + 1 : end]):
            check_derivation(net, texts, statement)
            found.append((net, texts, statement))
    return found


# ── what does not follow any more ──


def spoilt(net, texts, chance):
    """The derivation with one thing changed, in every way that cannot be right: name and lines."""
    n = chance.randrange(len(texts))
    lines = [Line(text) for text in texts]
    above = [line.said for line in lines]
    tail, sign, head = lines[n].said

    def changed(at, **values):
        line = Line(texts[at])
        vars(line).update(values)
        return texts[:at] + [line.text()] + texts[at + 1 :]

    def at_rule(*rules):
        found = [place for place, line in enumerate(lines) if line.rule in rules]
        return [chance.choice(found)] if found else []

    other = chance.choice([node for node in range(net.nodes + 1) if node not in (tail, head)])
    yield "another tail", changed(n, said=(other, sign, head))
    yield "another head", changed(n, said=(tail, sign, other))
    yield "the other sign", changed(n, said=(tail, 1 - sign, head))
    yield "another number", changed(n, number=lines[n].number + chance.choice([-1, 1, 10]))
    yield "a space more", texts[:n] + [texts[n].replace(" is", "  is")] + texts[n + 1 :]
    yield "a line more that cites itself", texts + [f"  {len(texts) + 1}  {tail} is {head}      3.2 from {len(texts) + 1} {len(texts) + 1}"]
    if above[-1] not in above[:-1]:
        yield "without its last line", texts[:-1]
    for at in at_rule("link"):
        line = lines[at]
        if line.said[1] == IS_NOT or line.said[0] != line.said[2]:
            yield "a link as rule 3.1", changed(at, rule="3.1", index=None, origin=None)
        yield "a link behind the last", changed(at, index=len(net.words) + chance.randrange(3))
        others = [index for index in range(len(net.words)) if net.says(index) != line.said]
        if others:
            index = chance.choice(others)
            yield "another link", changed(at, index=index, origin=net.origin(index))
        yield "another origin", changed(at, origin=0 if line.origin is None else (line.origin + chance.randint(1, 3)) % 4)
        if line.origin is not None:
            yield "no origin", changed(at, origin=None)
    for at in at_rule("3.1"):
        yield "rule 3.1 with lines", changed(at, cited=[1])
    for at in at_rule("3.2", "3.3", "3.4", "3.5"):
        line = lines[at]
        place = chance.randrange(len(line.cited))
        for name, number in [("itself", at + 1), ("a later line", at + 1 + chance.randint(1, 3)), ("no line", 0)] + [("another line", chance.randint(1, at))]:
            if name != "another line" or above[number - 1] != above[line.cited[place] - 1]:
                yield f"from {name}", changed(at, cited=[number if each == place else old for each, old in enumerate(line.cited)])
    for at in at_rule("3.2", "3.4", "3.5"):
        line = lines[at]
        first, second = line.cited
        for rule in {"3.2", "3.4", "3.5"} - {line.rule}:
            yield f"{line.rule} as {rule}", changed(at, rule=rule)
        yield f"{line.rule} as 3.3", changed(at, rule="3.3", cited=[second])
        if above[first - 1] != above[second - 1]:
            yield "its lines exchanged", changed(at, cited=[second, first])


# ── the programs ──


def command(name):
    """A program as tools/start starts it, without looking at its sources again."""
    return [str(ROOT / "crates" / name / "out" / name)]


def run(how, data):
    return subprocess.run(how, input=data, capture_output=True, check=True).stdout


def in_pieces(data, chance):
    """What `why` prints where the input comes in pieces of 1 to 40 bytes."""
    with subprocess.Popen(WHY, stdin=subprocess.PIPE, stdout=subprocess.PIPE) as program:
        at = 0
        while at < len(data):
            size = chance.randint(1, 40)
            os.write(program.stdin.fileno(), data[at : at + size])
            at += size
        program.stdin.close()
        return program.stdout.read()


# ── the inputs ──


M_WORDS = [word(0, 2, IS), word(1, 5, IS), word(2, 3, IS_NOT), word(4, 3, IS), word(5, 4, IS)]
M_FROM_ALL = [number + origin * ORIGIN for number, origin in zip(M_WORDS, (0, 1, 2, 3, 0))]
M_ASKED = [(x, y) for x in range(7) for y in range(7)]
M = net_file(2, 4, M_WORDS, M_ASKED)
M_CHOSEN = net_file(2, 4, M_FROM_ALL, M_ASKED, 15)


def with_number(data, at, number):
    return data[:at] + struct.pack("<I", number) + data[at + 4 :]


def malformed():
    """A file for each way in which an entry or the size can be wrong, and the place of what is."""
    for data, entries in (M, 3), (M_CHOSEN, 4):
        starts = [struct.unpack_from("<2I", data, 8 * n) for n in range(entries)]
        for n, (start, size) in enumerate(starts):
            place = 4 if n == 3 else n
            for number in start + 4, start - 4, 0xFFFFFFFC:
                yield with_number(data, 8 * n, number), place
            for number in size + 1, len(data), 0xFFFFFFFC:
                yield with_number(data, 8 * n + 4, number), place
        yield data + b"\0", 2 if entries == 3 else 4
        yield data[:-1], 2 if entries == 3 else 4
        yield data[: 8 * entries - 1], 3
        yield data + bytes(32769 - len(data)), 3
        yield data + bytes(40000), 3


def drawn(chance):
    """A net file by chance: with repeats, often with clashes, sometimes with a net that is refused, and sometimes malformed."""
    objects, kinds = chance.randint(0, 4), chance.randint(1, 8)
    nodes = objects + kinds
    negative = chance.choice([0.1, 0.3, 0.5])
    words = [word(chance.randrange(nodes), chance.randrange(objects, nodes), int(chance.random() < negative)) for _ in range(chance.randint(0, 16))]
    words += chance.choices(words, k=chance.randint(0, 4)) if words else []
    origins = chance.choice([None, None, chance.randint(0, 15), 15, chance.randint(14, 17)])
    if origins is not None:
        words = [number + chance.randint(0, 3) * ORIGIN for number in words]
    if words and chance.random() < 0.08:
        words[chance.randrange(len(words))] = chance.getrandbits(32)
    pairs = [(x, y) for x in range(nodes + 1) for y in range(nodes + 1)]
    data = net_file(objects, kinds, words, chance.sample(pairs, chance.randint(0, min(20, len(pairs)))), origins)
    if chance.random() < 0.08:
        at = chance.randrange(len(data))
        data = data[:at] + bytes([chance.randrange(256)]) + data[at + 1 :]
    return data


def chain(start, end):
    """Each node is the next one."""
    step = 1 if start < end else -1
    return [word(node, node + step, IS) for node in range(start, end, step)]


# A chain of 1,024 kinds whose last is not itself: so none of them is itself. The reason for that of the first has all nodes in both of its parts, and 4,094 lines.
LONGEST = net_file(0, 1024, chain(0, 1023) + [word(1023, 1023, IS_NOT)], [(0, 0)])


class Texts(unittest.TestCase):
    inputs = 0
    spoils = 0

    def read_back(self, data, name, how=None):
        """What is printed for an input, after its derivations have been read back."""
        Texts.inputs += 1
        printed = run(how or WHY, data)
        try:
            found = check_text(data, printed, run(ASK, data))
        except Wrong as wrong:
            self.fail(f"{name}: {wrong}")
        return printed.decode(), found

    def refuses(self, net, texts, statement, name):
        """Of a derivation, that the checker refuses it."""
        Texts.spoils += 1
        with self.assertRaises(Wrong, msg=f"{name}: {texts}"):
            check_derivation(net, texts, statement)

    def test_stored(self):
        """The nets of this repository: what is printed for them is stored."""
        for name, expected in [("m", ROOT / "crates" / "why" / "stdout"), ("m-user", STORED / "m-user.out"), ("accessories", STORED / "accessories.out")]:
            printed, _ = self.read_back((ROOT / "nets" / f"{name}.net").read_bytes(), name, [ROOT / "why"])
            self.assertEqual(printed, expected.read_text(encoding="utf-8"), name)

    def test_told(self):
        """The same with names: stored for M, and for the largest net no line but that of silence stays as it was."""
        for name in "m", "m-user", "accessories":
            printed = run(WHY, (ROOT / "nets" / f"{name}.net").read_bytes())
            told = run([sys.executable, ROOT / "tools" / "netfile.py", "tell", ROOT / "nets" / f"{name}.txt"], printed)
            if name != "accessories":
                self.assertEqual(told.decode(), (STORED / f"{name}.told").read_text(encoding="utf-8"), name)
            before, after = printed.splitlines(), told.splitlines()
            self.assertEqual(len(before), len(after), name)
            self.assertEqual({line for line, said in zip(before, after) if line == said}, {b"  the net is silent"}, name)

    def test_net_m(self):
        """M with all questions, under every set of origins; cut at every byte, and in pieces."""
        self.read_back(M, "M")
        for origins in range(17):
            self.read_back(net_file(2, 4, M_FROM_ALL, M_ASKED, origins), f"M with set {origins}")
        for data in (ROOT / "nets" / "m.net").read_bytes(), (ROOT / "nets" / "m-user.net").read_bytes():
            for size in range(len(data)):
                self.read_back(data[:size], f"cut at {size}")
        for seed in range(3):
            Texts.inputs += 1
            self.assertEqual(in_pieces(M_CHOSEN, random.Random(seed)), run(WHY, M_CHOSEN))

    def test_places(self):
        met = set()
        for data, place in malformed():
            self.assertEqual(self.read_back(data, f"place {place}")[0], f"file 9 {place}\n")
            met.add(place)
        self.assertEqual(met, {0, 1, 2, 3, 4})

    def test_nets(self):
        """Nets that are refused, and nets that have no questions or no links."""
        for data, expected in [
            (net_file(1000, 25, [], [(0, 1000)]), "net 1 0 0\n"),
            (net_file(0xFFFFFFFF, 1, [], []), "net 1 0 0\n"),
            (net_file(1, 1, [2, 0], [(0, 1)]), "net 3 1 2\n"),
            (net_file(1, 1, [2, 4098], [(0, 1)]), "net 3 1 1\n"),
            (net_file(1, 1, [2 + ORIGIN], [(0, 1)]), "net 3 0 1\n"),
            (net_file(1, 1, [2 + 4 * ORIGIN], [(0, 1)], 1), "net 3 0 3\n"),
            (net_file(1, 1, [0], [(0, 1)], 16), "net 15 0 0\n"),
            (net_file(2, 4, M_WORDS, []), ""),
            (net_file(2, 4, M_WORDS, [], 7), ""),
            (net_file(0, 0, [], []), ""),
            (net_file(0, 0, [], [(0, 0)]), "0 0 refused 4\n"),
            (net_file(1, 1, [], [(0, 1), (1, 1)]), "0 1 none 1\n  the net is silent\n1 1 yes 1\n  1  1 is 1      3.1\n"),
        ]:
            self.assertEqual(self.read_back(data, expected)[0], expected)

    def test_first_of_equal_links(self):
        """A link is named by the first word that says it and whose origin is in the set."""
        words = [word(0, 1, IS_NOT, 2), word(0, 1, IS, 1), word(0, 1, IS, 3), word(0, 1, IS, 0), word(0, 1, IS_NOT, 3)]
        for origins, expected in [
            (9, "both 2\n  1  0 is 1      link 2 origin 3\n  1  0 is-not 1  link 4 origin 3\n"),
            (3, "yes 2\n  1  0 is 1      link 1 origin 1\n"),
        ]:
            self.assertEqual(self.read_back(net_file(1, 1, words, [(0, 1)], origins), f"set {origins}")[0], "0 1 " + expected)

    def test_drawn(self):
        rules, answers, names = set(), set(), set()
        for seed in range(300):
            chance = random.Random(seed)
            data = drawn(chance)
            printed, found = self.read_back(data, f"seed {seed}")
            answers |= {text.split(" ")[2] for text in printed.splitlines() if not text.startswith((" ", "file", "net"))}
            for net, texts, statement in found:
                rules |= {Line(text).rule for text in texts}
                self.assertEqual([Line(text).text() for text in texts], texts)
                for name, lines in spoilt(net, texts, chance):
                    names.add(name)
                    self.refuses(net, lines, statement, name)
        self.assertEqual(answers, {"yes", "no", "both", "none", "refused"})
        self.assertEqual(rules, {"link", "3.1", "3.2", "3.3", "3.4", "3.5"})
        self.assertTrue(names >= {"another link", "another origin", "no origin", "from itself", "from a later line", "from another line", "3.4 as 3.5", "3.5 as 3.4"}, names)

    def test_sizes(self):
        """Files at the limit: 8,184 questions, as many words, and both with a set."""
        for data in [
            net_file(1, 1, [], [(n % 3, n // 3 % 3) for n in range(8184)]),
            net_file(2, 4, M_WORDS, [M_ASKED[n % 49] for n in range(8179)]),
            net_file(1, 2, [word(0, 1, IS)] * 8182 + [word(1, 2, IS)], [(0, 2)]),
            net_file(1, 2, [word(0, 1, IS_NOT, 1)] * 8179 + [word(0, 1, IS, 2)], [(0, 1)], 4),
            net_file(1, 2, [word(0, 1, IS, n % 4) for n in range(4000)], [(0, 1)] * 4181, 8),
        ]:
            self.assertEqual(len(data), 32768)
            self.read_back(data, "at the limit")

    def test_long_derivations(self):
        """Chains of 1,024 nodes, and two of 512 that a link ↛ joins, asked of an object and of a kind."""
        two = chain(0, 511) + chain(1023, 512)
        for data, lines in [
            (net_file(1, 1023, chain(0, 1023), [(0, 1023)]), 2045),
            (net_file(0, 1024, two + [word(511, 512, IS_NOT)], [(0, 1023)]), 2047),
            (net_file(0, 1024, two + [word(512, 511, IS_NOT)], [(0, 1023)]), 2046),
            (net_file(1, 1023, two + [word(511, 512, IS_NOT)], [(0, 1023)]), 2045),
            (net_file(1, 1023, two + [word(512, 511, IS_NOT)], [(0, 1023)]), 2046),
            (LONGEST, 4095),
        ]:
            printed, found = self.read_back(data, f"{lines} lines")
            self.assertEqual(len(printed.splitlines()), 1 + lines)
            for net, texts, statement in found:
                for name, spoiled in spoilt(net, texts, random.Random(lines)):
                    self.refuses(net, spoiled, statement, name)

    def test_checker(self):
        """Derivations by hand: what other lines show the same is accepted, and what no rule gives is refused."""
        net = Net(M)
        for statement, texts in [
            (
                (0, IS_NOT, 4),
                [
                    "  1  2 is-not 3  link 2",
                    "  2  0 is 2      link 0",
                    "  3  4 is 3      link 3",
                    "  4  3 is-not 2  3.3 from 1",
                    "  5  4 is-not 2  3.4 from 3 4",
                    "  6  2 is-not 4  3.3 from 5",
                    "  7  0 is-not 4  3.4 from 2 6",
                ],
            ),
            ((3, IS, 3), ["  1  3 is 3      3.1", "  2  3 is 3      3.2 from 1 1"]),
        ]:
            check_derivation(net, texts, statement)
        zero = net_file(2, 4, [word(0, 2, IS), word(0, 3, IS_NOT), word(4, 3, IS), word(2, 3, IS_NOT), word(2, 4, IS_NOT, 1)], [], 1)
        for name, statement, texts in [
            ("rule 3.5 for a kind", (2, IS_NOT, 4), ["  1  4 is 3      link 2 origin 0", "  2  2 is-not 3  link 3 origin 0", "  3  2 is-not 4  3.5 from 1 2"]),
            ("rule 3.3 for an object", (3, IS_NOT, 0), ["  1  0 is-not 3  link 1 origin 0", "  2  3 is-not 0  3.3 from 1"]),
            ("rule 3.1 for an object", (0, IS, 0), ["  1  0 is 0      3.1"]),
            ("a node behind the last", (6, IS, 6), ["  1  6 is 6      3.1"]),
            ("a link that is not chosen", (2, IS_NOT, 4), ["  1  2 is-not 4  link 4 origin 1"]),
            ("nothing", (0, IS, 2), []),
            ("a line that cites the next", (3, IS, 3), ["  1  3 is 3      3.2 from 2 2", "  2  3 is 3      3.1"]),
            ("another statement", (0, IS, 2), ["  1  0 is-not 3  link 1 origin 0"]),
            ("a number with a nought before it", (0, IS, 2), ["  1  0 is 02      link 0 origin 0"]),
        ]:
            self.refuses(Net(zero), texts, statement, name)
        data, asked, line = net_file(2, 4, M_WORDS, [(0, 2)]), b"0 2 yes 2\n", b"  1  0 is 2      link 0\n"
        self.assertEqual(len(check_text(data, asked + line, asked)), 1)
        for printed in asked, asked + b"  the net is silent\n", line + asked, asked + line + line, asked + line[:-1], b"0 2 no 2\n" + line, b"", asked + line + asked + line:
            Texts.spoils += 1
            with self.assertRaises(Wrong, msg=printed):
                check_text(data, printed, asked)


if __name__ == "__main__":
    for started in "ask", "why":
        subprocess.run([ROOT / started], stdin=subprocess.DEVNULL, stdout=subprocess.DEVNULL, check=True)
    ASK, WHY = command("ask"), command("why")
    done = unittest.main(exit=False).result.wasSuccessful()
    print(f"why_test: {Texts.inputs} inputs, {Texts.spoils} derivations spoilt" if done else "why_test: failed")
    sys.exit(not done)
