#!/usr/bin/env python3
"""Makes a net file from lines of text, lists one, puts names into answers and draws; docs/FORMATS.md describes the forms."""

import argparse
import os
import re
import shutil
import stat
import struct
import subprocess
import sys

SYNTAX = """\
One line of the text holds one statement; from # to the end of the line is comment.

  objects 2          the number of objects
  kinds 4            the number of kinds
  origins 0 1 3      the set of origins to use; `origins none` is the empty set
  0 is 2             a link with sign 0: tail 0, head 2
  2 is-not 3         a link with sign 1: tail 2, head 3
  4 is 3 origin 1    a link that origin 1 entered; where no origin is named it is 0
  ask 0 4            a question: x = 0, y = 4
  name 2 an average  node 2 has this name; names go into no file
  origin 1 lab       origin 1 has this name

objects, kinds and origins stand before the first link, objects and kinds before the first name. An origin is 0, 1, 2 or 3.
With a line `origins` the file has four contents entries. Without one it has three,
and no link names an origin.
"""

ENTRY_SIZE = 8
EXACT_LENGTHS = {0: 8, 3: 4}
LEAST_SIZE = 24
FILE_LIMIT = 32768
NODE_LIMIT = 1024
COUNT_LIMIT = 0xFFFFFFFF
PLAIN_WORDS = 2097152
TAIL_LIMIT = 0xFFFFFFFF // 2048
TAIL_LIMIT_BESIDE_ORIGIN = PLAIN_WORDS // 2048 - 1
HEAD_LIMIT = 1023
ORIGIN_LIMIT = 3
ORIGIN_LIMIT_IN_WORD = 0xFFFFFFFF // PLAIN_WORDS
ORIGIN_LIMIT_IN_SET = 31
QUESTION_LIMIT = 0xFFFF
SIGNS = {"is": 0, "is-not": 1}
COUNTS = ("objects", "kinds")
ORIGIN_NAMES = {0: "factory", 1: "calibration lab", 2: "user", 3: "origin 3"}
NUMBER = "[0-9]{1,10}"
DRAWN_WHOLE = 40


class BadText(Exception):
    """A line of the text that cannot go into a net file."""

    def __init__(self, line, message):
        super().__init__(f"line {line}: {message}")


class BadFile(Exception):
    """A malformed net file, with the place of its first fault."""

    def __init__(self, place):
        super().__init__(f"file 9 {place}")


class Refused(Exception):
    """A request that this program does not carry out."""


class Net:
    """The counts, link words and questions of one net file, in file order, and its set of origins: None where it has three entries."""

    def __init__(self):
        self.counts = {}
        self.origins = None
        self.words = []
        self.questions = []

    def size(self):
        """The number of bytes of the net file."""
        sizes = [8, 4 * len(self.words), 4 * len(self.questions)] + [4] * (self.origins is not None)
        return len(sizes) * ENTRY_SIZE + sum(sizes)

    def to_bytes(self):
        """The net file: contents, then the bodies without a gap."""
        bodies = [
            struct.pack("<2I", *(self.counts[name] for name in COUNTS)),
            struct.pack(f"<{len(self.words)}I", *self.words),
            b"".join(struct.pack("<2H", *question) for question in self.questions),
        ]
        if self.origins is not None:
            bodies.append(struct.pack("<I", self.origins))
        contents, start = b"", len(bodies) * ENTRY_SIZE
        for body in bodies:
            contents += struct.pack("<2I", start, len(body))
            start += len(body)
        return contents + b"".join(bodies)

    def to_text(self, names=None):
        """The lines that `make` turns back into the same file; with names also these, and each line in words as a comment."""
        lines = [f"{name} {self.counts[name]}" for name in COUNTS]
        if self.origins is not None:
            chosen = [str(bit) for bit in range(ORIGIN_LIMIT_IN_SET + 1) if self.origins >> bit & 1]
            lines.append("origins " + (" ".join(chosen) or "none"))
        links = [self.link_text(word) for word in self.words]
        questions = [f"ask {x} {y}" for x, y in self.questions]
        if names is not None:
            lines += names.to_lines()
            width = max(map(len, links + questions), default=0) + 4
            links = [f"{link:<{width}}# {names.sentence(*self.parts(word)[:3])}" for link, word in zip(links, self.words)]
            questions = [f"{ask:<{width}}# {names.question(*pair)}" for ask, pair in zip(questions, self.questions)]
        return "".join(line + "\n" for line in lines + links + questions)

    def parts(self, word):
        """Tail, sign, head and origin of a link word."""
        origin = 0 if self.origins is None else word // PLAIN_WORDS
        plain = word - origin * PLAIN_WORDS
        return plain // 2048, plain % 2, plain // 2 % 1024, origin

    def read_links(self):
        """Tail, sign and head of each link that is read, by its index: those whose origin is in the set."""
        every = {index: self.parts(word) for index, word in enumerate(self.words)}
        return {index: link[:3] for index, link in every.items() if self.origins is None or self.origins >> link[3] & 1}

    def link_text(self, word):
        """The line of one link word, with its origin where it has one."""
        tail, sign, head, origin = self.parts(word)
        return f"{tail} {'is-not' if sign else 'is'} {head}" + (f" origin {origin}" if origin else "")


class Names:
    """The names of nodes and of origins. A name stands as it was written; what has none keeps its number."""

    def __init__(self):
        self.objects = 0
        self.nodes = {}
        self.origins = dict(ORIGIN_NAMES)
        self.given = set()

    def to_lines(self):
        """The lines that give these names."""
        lines = [f"origin {origin} {self.origins[origin]}" for origin in sorted(self.given)]
        return lines + [f"name {node} {self.nodes[node]}" for node in sorted(self.nodes)]

    def name(self, node):
        """The name as it was written."""
        return self.nodes.get(node, str(node))

    def label(self, node):
        """The name without `a` or `an` before it."""
        return re.sub("^an? ", "", self.name(node))

    def subject(self, node):
        """The name at the front of a sentence: a kind's without an article stands behind `what is`."""
        name = self.name(node)
        plain = node < self.objects or node not in self.nodes or re.match("(an?|the) ", name)
        return name if plain else f"what is {name}"

    def sentence(self, tail, sign, head):
        """What a link or a statement says."""
        return f"{self.subject(tail)} is {'not ' if sign else ''}{self.name(head)}"

    def question(self, x, y):
        """What a question asks."""
        return f"is {self.subject(x)} {self.name(y)}?"

    def answer(self, x, y, word, count):
        """What a line of `ask` says."""
        if word == "refused":
            return f"refused: {x} {y} is no question of this net (number {count})"
        said = {
            "yes": self.sentence(x, 0, y),
            "no": self.sentence(x, 1, y),
            "both": f"{self.sentence(x, 0, y)}, and it is not",
            "none": f"the net does not say whether {self.sentence(x, 0, y)}",
        }
        return f"{word}: {said[word]} ({count} round{'' if count == '1' else 's'})"

    def ground(self, written):
        """What the end of a line of `why` says: a link and who entered it, or a rule and its lines."""
        words = written.split()
        if words[0] == "link":
            origin = int(words[3]) if words[3:] else 0
            return f"link {words[1]}, {self.origins.get(origin, f'origin {origin}')}"
        return f"rule {words[0]}" + (f", from {' and '.join(words[2:])}" if words[2:] else "")

    def tell(self, line):
        """A line of `ask` or of `why` in words; any other line as it is."""
        found = re.fullmatch(rf"({NUMBER}) ({NUMBER}) (yes|no|none|both|refused) ({NUMBER})", line)
        if found:
            return self.answer(int(found[1]), int(found[2]), found[3], found[4])
        ground = rf"link {NUMBER}(?: origin {NUMBER})?|3\.[1-5](?: from {NUMBER}(?: {NUMBER})?)?"
        found = re.fullmatch(rf"( +{NUMBER} +)({NUMBER}) (is|is-not) ({NUMBER}) +({ground})", line)
        if found:
            said = self.sentence(int(found[2]), SIGNS[found[3]], int(found[4]))
            return f"{found[1]}{said} ({self.ground(found[5])})"
        return line


class TextReader:
    """Reads a text line by line into a net; the first line at fault ends the reading."""

    def __init__(self, unchecked):
        self.unchecked = unchecked
        self.net = Net()
        self.names = Names()
        self.line = 0

    def read(self, text):
        """The net of the whole text, given as bytes."""
        for line in text.split(b"\n"):
            self.line += 1
            words = [word.decode("ascii", "backslashreplace") for word in line.split(b"#")[0].split()]
            if words:
                self.statement(words, line.split(b"#")[0].split())
        self.line = max(1, self.line - text.endswith(b"\n"))
        self.require_counts("the text ends without")
        self.names.objects = self.net.counts["objects"]
        return self.net

    def statement(self, words, raw):
        """Takes one statement, told apart by its first or second word."""
        if words[0] in COUNTS:
            self.require_size(words, 2)
            self.count(*words)
        elif words[0] == "origins":
            self.set_of_origins(words)
        elif words[0] in ("name", "origin"):
            self.require_size(words[:3], 3)
            self.name(words[0], words[1], b" ".join(raw[2:]))
        elif words[0] == "ask":
            self.require_size(words, 3)
            self.question(*words[1:])
        elif len(words) > 1 and words[1] in SIGNS:
            named = words[3:4] == ["origin"]
            self.require_size(words, 5 if named else 3)
            self.link(*words[:3], words[4] if named else None)
        elif words[0].isdigit() and len(words) > 1:
            self.fail(f"unknown word `{words[1]}`, where `is` or `is-not` should stand")
        elif words[0].isdigit():
            self.fail(f"the statement ends after `{words[0]}`")
        else:
            self.fail(f"unknown word `{words[0]}`")

    def count(self, name, written):
        """Takes `objects NUMBER` or `kinds NUMBER`."""
        if name in self.net.counts:
            self.fail(f"a second `{name}` line")
        self.net.counts[name] = self.number(name, written, COUNT_LIMIT)
        nodes = sum(self.net.counts.values())
        if nodes > NODE_LIMIT and not self.unchecked:
            self.fail(f"{nodes} nodes, and a net has at most {NODE_LIMIT}")

    def set_of_origins(self, words):
        """Takes `origins NUMBER ..` or `origins none`."""
        if self.net.origins is not None:
            self.fail("a second `origins` line")
        if self.net.words:
            self.fail("the line `origins` must stand before the first link")
        self.require_size(words[:2], 2)
        self.net.origins = 0
        for written in [] if words[1:] == ["none"] else words[1:]:
            origin = self.number("origin", written, ORIGIN_LIMIT_IN_SET if self.unchecked else ORIGIN_LIMIT)
            if self.net.origins >> origin & 1:
                self.fail(f"origin {origin} stands twice")
            self.net.origins |= 1 << origin
        self.require_room()

    def link(self, tail_written, verb, head_written, origin_written):
        """Takes `TAIL is HEAD` or `TAIL is-not HEAD`, with `origin NUMBER` or without."""
        tail = self.number("tail", tail_written, TAIL_LIMIT if self.net.origins is None else TAIL_LIMIT_BESIDE_ORIGIN)
        head = self.number("head", head_written, HEAD_LIMIT)
        origin = 0
        if origin_written is not None:
            origin = self.number("origin", origin_written, ORIGIN_LIMIT_IN_WORD if self.unchecked else ORIGIN_LIMIT)
        self.require_counts("before the first link there must be")
        if origin_written is not None and self.net.origins is None:
            self.fail("where links name an origin there must be a line `origins NUMBER ..` before the first link")
        if not self.unchecked:
            self.require_legal(tail, head)
        self.net.words.append(origin * PLAIN_WORDS + tail * 2048 + head * 2 + SIGNS[verb])
        self.require_room()

    def question(self, x_written, y_written):
        """Takes `ask X Y`; whether X and Y suit the net is for the engine to answer."""
        x, y = (self.number("question number", each, QUESTION_LIMIT) for each in (x_written, y_written))
        self.net.questions.append((x, y))
        self.require_room()

    def name(self, what, written, raw):
        """Takes `name NODE NAME` or `origin NUMBER NAME`."""
        try:
            name = raw.decode("utf-8")
        except UnicodeDecodeError:
            self.fail("the name is not UTF-8")
        if not name.isprintable():
            self.fail("the name has a character that cannot be printed")
        if what == "origin":
            node, names, given = self.number("origin", written, ORIGIN_LIMIT), self.names.origins, self.names.given
        else:
            self.require_counts("before the first name there must be")
            what, names, given = "node", self.names.nodes, self.names.nodes
            node = self.number("node", written, COUNT_LIMIT)
            nodes = sum(self.net.counts.values())
            if node >= nodes:
                self.fail(f"node {node} is outside the net, which has {nodes} nodes")
        if node in given:
            self.fail(f"a second name for {what} {node}")
        for other, taken in names.items():
            if taken == name and other != node:
                self.fail(f"`{name}` is the name of {what} {other}")
        names[node] = name
        if what == "origin":
            given.add(node)

    def number(self, name, written, limit):
        """The decimal number written, at most the limit."""
        if not re.fullmatch("[0-9]+", written):
            self.fail(f"{name} `{written}` is not a decimal number")
        digits = written.lstrip("0") or "0"
        if len(digits) > len(str(limit)) or int(digits) > limit:
            self.fail(f"{name} {digits} is too large, the largest is {limit}")
        return int(digits)

    def require_size(self, words, size):
        """A statement has exactly its number of words."""
        if len(words) < size:
            self.fail(f"the statement ends after `{words[-1]}`")
        if len(words) > size:
            self.fail(f"`{words[size]}` stands after the end of the statement")

    def require_counts(self, message):
        """Both counts have been read."""
        for name in COUNTS:
            if name not in self.net.counts:
                self.fail(f"{message} a line `{name} NUMBER`")

    def require_legal(self, tail, head):
        """Tail and head are nodes of the net, and the head is a kind."""
        objects, nodes = self.net.counts["objects"], sum(self.net.counts.values())
        for name, node in (("tail", tail), ("head", head)):
            if node >= nodes:
                self.fail(f"{name} {node} is outside the net, which has {nodes} nodes")
        if head < objects:
            self.fail(f"head {head} is an object, and only kinds can be heads")

    def require_room(self):
        """The file so far is not above the limit."""
        if self.net.size() > FILE_LIMIT:
            self.fail(f"the file would have more than {FILE_LIMIT} bytes")

    def fail(self, message):
        """Ends the reading at the present line."""
        raise BadText(self.line, message)


def read_net(data):
    """The net in a well-formed file; a malformed one gives the place of its first fault."""
    if not LEAST_SIZE <= len(data) <= FILE_LIMIT:
        raise BadFile(3)
    count = 4 if struct.unpack_from("<I", data) == (32,) else 3
    end, bodies = count * ENTRY_SIZE, []
    if len(data) < end:
        raise BadFile(3)
    for entry, place in enumerate((0, 1, 2, 4)[:count]):
        start, length = struct.unpack_from("<2I", data, entry * ENTRY_SIZE)
        right_length = length == EXACT_LENGTHS[entry] if entry in EXACT_LENGTHS else length % 4 == 0
        right_end = start + length == len(data) if entry + 1 == count else start + length <= len(data)
        if start != end or not right_length or not right_end:
            raise BadFile(place)
        end = start + length
        bodies.append(data[start:end])
    net = Net()
    net.counts = dict(zip(COUNTS, struct.unpack("<2I", bodies[0])))
    net.words = [word for word, in struct.iter_unpack("<I", bodies[1])]
    net.questions = list(struct.iter_unpack("<2H", bodies[2]))
    if count == 4:
        net.origins, = struct.unpack("<I", bodies[3])
    return net


def read_all(path, limit=-1):
    """The bytes of a file or of standard input, up to the limit."""
    with open(0 if path == "-" else path, "rb", closefd=path != "-") as source:
        return source.read(limit)


def write_all(path, data):
    """Writes the whole of the data, or leaves the target as it was."""
    if path == "-":
        with open(1, "wb", closefd=False) as target:
            target.write(data)
        return
    target = os.path.realpath(path)
    if os.path.exists(target) and not stat.S_ISREG(os.stat(target).st_mode):
        raise Refused(f"{path} is not a plain file")
    folder, name = os.path.split(target)
    beside = os.path.join(folder, f".{name}.{os.getpid()}.new")
    new = open(beside, "xb")
    try:
        with new:
            new.write(data)
        os.replace(beside, target)
    except BaseException:
        os.unlink(beside)
        raise


def make(text_path, file_path, unchecked):
    """Turns a text into a net file."""
    if "-" not in (text_path, file_path) and os.path.exists(file_path) and os.path.samefile(text_path, file_path):
        raise Refused("TEXT and FILE are the same file")
    write_all(file_path, TextReader(unchecked).read(read_all(text_path)).to_bytes())


def read_names(path):
    """The net and the names of a text; without a path no net and no names."""
    if path == "-":
        raise Refused("names are read from a file, not from standard input")
    reader = TextReader(False)
    return (None if path is None else reader.read(read_all(path))), reader.names


def read_both(file_path, names_path):
    """The net of a file, and names for it from a text with the same counts."""
    net = read_net(read_all(file_path, FILE_LIMIT + 1))
    named, names = read_names(names_path)
    if named is not None and named.counts != net.counts:
        counts = [" and ".join(f"{each.counts[name]} {name}" for name in COUNTS) for each in (named, net)]
        raise Refused(f"the names are for {counts[0]}, and the net has {counts[1]}")
    names.objects = net.counts["objects"]
    return net, names


def list_net(file_path, names_path):
    """Prints the text of a net file, with names where some are given."""
    net, names = read_both(file_path, names_path)
    write_all("-", net.to_text(None if names_path is None else names).encode("utf-8"))


def tell(names_path):
    """Puts names into what `ask` or `why` printed."""
    _, names = read_names(names_path)
    lines = read_all("-").decode("utf-8", "backslashreplace").split("\n")
    write_all("-", "\n".join(map(names.tell, lines)).encode("utf-8"))


def ways_up(links, start):
    """For each node that a path of links "is" leads to from the start, the shortest path, as nodes and the links between them."""
    ways, queue = {start: ([start], [])}, [start]
    for node in queue:
        for index, (tail, sign, head) in links.items():
            if tail == node and not sign and head not in ways:
                ways[head] = (ways[node][0] + [head], ways[node][1] + [index])
                queue.append(head)
    return ways


def reason(net, x, y, sign):
    """A shortest path by rules (3.1) to (3.5) that shows the statement, as nodes and links, or None. This search is not proved."""
    links = net.read_links()
    up = ways_up(links, x)
    if not sign:
        return up.get(y)
    down, found = ways_up(links, y), []
    for index, (tail, link_sign, head) in links.items():
        for near, far in ((tail, head), (head, tail)) if link_sign else ():
            if near in up and far in down:
                (first, before), (second, after) = up[near], down[far]
                found.append((first + second[::-1], before + [index] + after[::-1]))
    return min(found, key=lambda way: len(way[1]), default=None)


def require_question(net, x, y):
    """x is a node of the net and y a kind."""
    nodes = sum(net.counts.values())
    if nodes > NODE_LIMIT or not (0 <= x < nodes and net.counts["objects"] <= y < nodes):
        raise Refused(f"{x} {y} is no question of this net")


def quoted(text):
    """A string of the graph language."""
    return '"' + text.replace("\\", "\\\\").replace('"', '\\"') + '"'


def graph(net, names, about, whole):
    """The graph of a net; of a large one, or where a question is named, that of the question's neighbourhood with its reasons marked."""
    nodes = sum(net.counts.values())
    if nodes > NODE_LIMIT:
        raise Refused(f"{nodes} nodes, and a net has at most {NODE_LIMIT}")
    if about is None and nodes > DRAWN_WHOLE and not whole:
        if not net.questions:
            raise Refused(f"the net has {nodes} nodes: name a question with --about X Y, or draw all of it with --whole")
        about = net.questions[0]
    links = {index: net.parts(word)[:3] for index, word in enumerate(net.words)}
    for tail, _, head in links.values():
        if tail >= nodes or not net.counts["objects"] <= head < nodes:
            raise Refused(f"the net has an illegal link from {tail} to {head}")
    read, near, marked, said = net.read_links(), set(range(nodes)), set(), ""
    if about is not None:
        require_question(net, *about)
        core = set(about)
        for sign in (0, 1):
            way = reason(net, *about, sign)
            if way is not None:
                core, marked = core | set(way[0]), marked | set(way[1])
                said += f"{names.sentence(about[0], sign, about[1])}\n"
        if nodes > DRAWN_WHOLE and not whole:
            links = {index: link for index, link in links.items() if link[0] in core or link[2] in core}
            near = core | {node for link in links.values() for node in (link[0], link[2])}
        said = said or f"the net does not say whether {names.sentence(about[0], 0, about[1])}\n"
    lines = ["digraph net {", "    rankdir=BT;", '    node [fontname="Helvetica,Arial,sans-serif", shape=box, style="rounded,filled", fillcolor=white, color="#8199b1"];']
    lines += ['    edge [color="#7a8794"];']
    if said:
        shown = quoted(said).replace("\n", "\\n")
        lines.append(f'    label={shown}; labelloc=t; fontname="Helvetica,Arial,sans-serif";')
    for node in sorted(near):
        label = f"{node}  {names.label(node)}" if node in names.nodes else str(node)
        object_look = ', style=filled, fillcolor="#fff6df", color="#c9a44a"' if node < net.counts["objects"] else ""
        lines.append(f"    n{node} [label={quoted(label)}{object_look}];")
    for index, (tail, sign, head) in links.items():
        look = ['color="#c62828", style=dashed, arrowhead=tee'] if sign else []
        look += ['color="#20476e"'] if index in marked and not sign else []
        look += ["penwidth=3.5"] if index in marked else []
        look += ['color="#cccccc"'] if index not in read else []
        lines.append(f"    n{tail} -> n{head}" + (f" [{', '.join(look)}]" if look else "") + ";")
    return "\n".join(lines + ["}"]) + "\n"


def draw(file_path, names_path, about, whole, svg):
    """Prints the graph of a net for Graphviz, or the picture that Graphviz makes of it."""
    net, names = read_both(file_path, names_path)
    data = graph(net, names, about, whole).encode("utf-8")
    if svg:
        program = shutil.which("dot")
        if program is None:
            raise Refused("--svg needs the program `dot` of Graphviz, which is not installed")
        data = subprocess.run([program, "-Tsvg"], input=data, stdout=subprocess.PIPE, check=True).stdout
    write_all("-", data)


def arrows(net, nodes, links):
    """A reason as README writes it."""
    shown = str(nodes[0])
    for node, after, index in zip(nodes, nodes[1:], links):
        tail, sign, _ = net.parts(net.words[index])[:3]
        shown += f" {('→↛' if tail == node else '←↚')[sign]} {after}"
    return shown


def answer_row(net, x, y, words):
    """The row of a question: its numbers, its words, its answer by the search of this program, and the paths."""
    try:
        require_question(net, x, y)
    except Refused:
        return f"| {x} {y} | {words} | refused, number 4 | |"
    ways = [reason(net, x, y, sign) for sign in (0, 1)]
    shown = ["" if way is None else arrows(net, *way) for way in ways]
    if x == y and not ways[0][1]:
        shown[0] += " (a kind is itself)"
    answer = ("none", "yes", "no", "both")[(ways[0] is not None) + 2 * (ways[1] is not None)]
    return f"| {x} {y} | {words} | {answer} | {', '.join(filter(None, shown))} |".replace("|  |", "| |")


def tables(text_path):
    """Prints a text's names, origins and questions as Markdown tables; comments behind names and questions go into them."""
    data = read_all(text_path)
    reader = TextReader(False)
    net, names, blocks, above, before = reader.read(data), reader.names, [], "", ""
    for line in data.decode("utf-8", "backslashreplace").split("\n"):
        statement, _, comment = (part.strip() for part in line.partition("#"))
        word = statement.split()[0] if statement else ""
        if word in ("name", "ask"):
            if before != word:
                blocks += [f"### {above}"] if above else []
                header = ("number", "name", "meaning") if word == "name" else ("question", "in words", "answer", "path")
                blocks.append("| " + " | ".join(header) + " |\n|" + "---|" * len(header))
            numbers = statement.split()[1:3]
            row = f"| {numbers[0]} | {names.label(int(numbers[0]))} | {comment} |" if word == "name" else answer_row(net, *map(int, numbers), comment)
            blocks[-1] += "\n" + row.replace("|  |", "| |")
        before, above = word, comment if not statement else ""
    if net.origins is not None:
        by = {}
        for word in net.words:
            tail, sign, head, origin = net.parts(word)
            by.setdefault(origin, []).append(f"`{tail} {'→↛'[sign]} {head}`")
        rows = [f"| {origin} | {names.origins[origin]} | {', '.join(by[origin])} |" for origin in sorted(by)]
        blocks.append("\n".join(["| origin | who | links |", "|---|---|---|"] + rows))
    write_all("-", ("\n\n".join(blocks) + "\n").encode("utf-8"))


def main(arguments):
    """Runs one command and gives the exit status."""
    layout = argparse.RawDescriptionHelpFormatter
    parser = argparse.ArgumentParser(prog="netfile.py", description=__doc__, epilog=SYNTAX, formatter_class=layout)
    commands = parser.add_subparsers(dest="command", required=True)
    maker = commands.add_parser("make", help="make a net file from text", epilog=SYNTAX, formatter_class=layout)
    maker.add_argument("--unchecked", action="store_true", help="let illegal nets through, to try the engine's refusals")
    maker.add_argument("text", metavar="TEXT", help="the text, or - for standard input")
    maker.add_argument("file", metavar="FILE", help="the net file, or - for standard output")
    lister = commands.add_parser("list", help="print a net file as text")
    lister.add_argument("--names", metavar="TEXT", help="a text with names, which are listed too")
    lister.add_argument("file", metavar="FILE", help="the net file, or - for standard input")
    teller = commands.add_parser("tell", help="put names into what ask or why printed, from standard input to standard output")
    teller.add_argument("names", metavar="NAMES", help="a text with names")
    drawer = commands.add_parser("draw", help="print the graph of a net for Graphviz; what it marks is found by a search that is not proved")
    drawer.add_argument("--names", metavar="TEXT", help="a text with names, for the labels")
    drawer.add_argument("--about", nargs=2, type=int, metavar=("X", "Y"), help="the question whose reason is marked")
    drawer.add_argument("--whole", action="store_true", help=f"draw all of a net of more than {DRAWN_WHOLE} nodes, too")
    drawer.add_argument("--svg", action="store_true", help="print the picture; needs Graphviz")
    drawer.add_argument("file", metavar="FILE", help="the net file, or - for standard input")
    tabler = commands.add_parser("tables", help="print a text's names, questions and origins as Markdown tables")
    tabler.add_argument("text", metavar="TEXT", help="the text, or - for standard input")
    given = parser.parse_args(arguments)
    try:
        if given.command == "make":
            make(given.text, given.file, given.unchecked)
        elif given.command == "list":
            list_net(given.file, given.names)
        elif given.command == "tell":
            tell(given.names)
        elif given.command == "draw":
            draw(given.file, given.names, given.about, given.whole, given.svg)
        else:
            tables(given.text)
    except BadFile as fault:
        print(fault, file=sys.stderr)
        return 1
    except (BadText, Refused, OSError, subprocess.CalledProcessError) as fault:
        print(f"netfile.py: {fault}", file=sys.stderr)
        return 1
    return 0


if __name__ == "__main__":
    sys.exit(main(sys.argv[1:]))
