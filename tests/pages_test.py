#!/usr/bin/env python3
"""The pages name what is there: theorems in the file that their row names, definitions in some specs/, functions in their crate, edits
and their counts, files that links lead to, and any other name of the repository somewhere in it. And nothing on them stands for
what is still to be written.

    python3 tests/pages_test.py        prints `pages: ok`, or each name that is not there and each placeholder, and then exits with status 1
"""
import pathlib
import re
import sys

ROOT = pathlib.Path(__file__).resolve().parent.parent
CRATES = ROOT / "crates"
PAGES = [*ROOT.glob("*.md"), *ROOT.glob("docs/**/*.md"), *ROOT.glob("nets/*.md")]
NAMED = re.compile(r"`([^`\s]+)`")
THEOREM_FILE = re.compile(r"`((?:[a-z_]+/)*[A-Za-z0-9]+\.antt)`")
THEOREM = re.compile(r"[a-z][\w′-]*")

# What stands for something that is still to be written: words anywhere, and marks that fill a cell of a table. An empty cell says
# that there is nothing, or what the cell above says.
PLACEHOLDER = re.compile(r"\b(?:TODO|TBD|FIXME|XXX)\b|\?\?+|\bto\s+be\s+(?:measured|filled\s+in)\b", re.IGNORECASE)
MARK_ALONE = re.compile(r"\?|…|\.\.\.?")

# How far a count of lines may be from what READING says.
LINES_OFF = 5

# What the pages name and the repository does not: settings of the machine and of the kit, and needs by the kit's names.
ELSEWHERE = {"MIMALLOC_ALLOW_LARGE_OS_PAGES", "MIMALLOC_PURGE_DELAY", "rattle-kit-5b", "rattle-kit-13f", "returns", "returns-2", "returns-4", "Lts.antt"}


def text(path):
    return path.read_text(encoding="utf-8")


def defined(path):
    """The names that a file of definitions or proofs introduces, fields and rules of a record or a type among them."""
    found = set(re.findall(r"^\s*(?:(?:abbrev|unfoldable|pub|record|data|inductive)\s+)*([^\s:(){}]+)(?=\s*(?:[({].*)?:)", text(path), re.M))
    found |= set(re.findall(r"^\s*pub (?:record|data) ([^\s:(){}]+)", text(path), re.M))
    return found


def fields(record):
    """The fields of a record of promises/specs, by its name."""
    for path in CRATES.glob("promises/specs/*.antt"):
        body = re.search(rf"^pub record {record}\b.*\n((?:(?: .*)?\n)*)", text(path), re.M)
        if body:
            return set(re.findall(r"^  pub (\w+) :", body[1], re.M))
    return set()


def cells_of(line):
    """The cells of a line of a table."""
    return [cell.strip() for cell in re.split(r"(?<!\\)\|", line)[1:-1]]


def tables(page):
    """The rows of a page's tables: number of the line, the section, and the cells by the header of the table."""
    header, section = None, ""
    for number, line in enumerate(text(page).splitlines(), 1):
        if line.startswith("## "):
            section = line
        if not line.startswith("|"):
            header = None
            continue
        cells = cells_of(line)
        if header is None:
            header = cells
        elif not set("".join(cells)) <= set("-: "):
            yield number, section, dict(zip(header, cells))


def files_of(cell, folder):
    """The files that a cell names; a later one without a folder stands beside the one before it."""
    for name in THEOREM_FILE.findall(cell):
        path = (CRATES / name) if (CRATES / name.split("/")[0]).is_dir() and "/" in name and not (folder / name).exists() else (folder / name)
        folder = path.parent
        yield path


def reading(wrong):
    page = ROOT / "docs" / "READING.md"
    specs = set().union(*(defined(p) for p in CRATES.glob("*/specs/**/*.antt")))
    proofs = set().union(*(defined(p) for p in CRATES.glob("*/proofs/**/*.antt")))
    declared = set().union(*(set(re.findall(r"\b(?:enum|struct|const) (\w+)", text(p))) for p in CRATES.glob("*/src/**/*.rt")))
    for number, section, row in tables(page):
        def miss(what):
            wrong.append(f"{page.name}:{number}: {what}")

        theorems = row.get("theorem", row.get("theorem or field"))
        if theorems is not None and "file" in row:
            folder = CRATES / ("promises" if section.startswith("## 4") else "theory") / "proofs"
            files = list(files_of(row["file"], folder))
            here = set()
            for path in files:
                if path.is_file():
                    here |= defined(path)
                else:
                    miss(f"no file {path.relative_to(ROOT)}")
            for name in NAMED.findall(theorems):
                record, dot, field = name.partition(".")
                if dot and record[:1].isupper():
                    if field not in fields(record):
                        miss(f"{record} has no field {field}")
                elif THEOREM.fullmatch(name) and (name not in here if files else True):
                    miss(f"{name} is not in {row['file'] or 'a file that is named'}")
        for name in NAMED.findall(row.get("definition", "") + row.get("equated with", "") + row.get("replies by", "")):
            if re.fullmatch(r"[A-Za-z]\w*", name) and name not in specs | declared:
                miss(f"no definition {name}")
        for name in NAMED.findall(row.get("beside it", "")):
            if name not in proofs:
                miss(f"no theorem {name}")
        for name in NAMED.findall(row.get("exported as", "")):
            if f"fn {name}(" not in text(CRATES / "strumelka" / "src" / "lib.rt"):
                miss(f"no exported function {name}")
        functions = row.get("functions with a `requires`") and f"{row['crate']}, {row['functions with a `requires`']}"
        crate, *names = NAMED.findall(row.get("crate, function", functions or "`net`"))
        source = "".join(text(p) for p in sorted((CRATES / crate).glob("src/*.rt")))
        for name in names:
            found = re.search(rf"^pub fn {name}\b([^{{]*?)\n(?:    requires|    ensures|\{{)", source, re.M)
            if not found:
                miss(f"{crate} has no public function {name}")
            elif functions and f"{found[0]}".rsplit("\n", 1)[1].strip() != "requires":
                miss(f"{name} has no requires")
    for number, _, row in tables(page):
        cell = row.get("file", next((row[h] for h in row if h.startswith("file of ")), ""))
        counts = re.findall(r"\d+", row.get("lines", ""))
        header = next((h for h in row if h.startswith("file of ")), "")
        folder = CRATES / NAMED.findall(header)[0] if header else CRATES
        for path, count in zip(files_of(cell, folder), counts):
            if not path.is_file():
                wrong.append(f"{page.name}:{number}: no file {path.relative_to(ROOT)}")
            elif abs(len(text(path).splitlines()) - int(count)) > LINES_OFF:
                wrong.append(f"{page.name}:{number}: {path.relative_to(CRATES)} has {len(text(path).splitlines())} lines, not {count}")


def tightness(wrong):
    page = ROOT / "docs" / "TIGHTNESS.md"
    edits = {(p.parent.parent.name, p.stem) for p in CRATES.glob("*/must-fail/*.edit")}
    told, crates, counts = set(), [], {}
    rows = {number: row for number, _, row in tables(page)}
    for number, line in enumerate(text(page).splitlines(), 1):
        if line.startswith("#"):
            counted = re.findall(r"`(\w+)` \((\d+)\)", line) if line.startswith("### ") else []
            crates = [crate for crate, _ in counted]
            counts.update({crate: int(count) for crate, count in counted})
        for name in NAMED.findall(rows.get(number, {}).get("edit", "")):
            found = {(crate, name) for crate in crates} & edits
            told |= found
            if not found:
                wrong.append(f"{page.name}:{number}: no edit {name} in {', '.join(crates)}")
    for crate, name in sorted(edits - told):
        wrong.append(f"{page.name}: the edit {name} of {crate} is not told")
    for crate in sorted({crate for crate, _ in edits} | set(counts)):
        total = sum(1 for c, _ in edits if c == crate)
        if counts.get(crate) != total:
            wrong.append(f"{page.name}: {crate} has {total} edits, not {counts.get(crate)}")
    count = re.search(r"There are (\d+) must-fail edits", text(page))
    if not count or int(count[1]) != len(edits):
        wrong.append(f"{page.name}: says {count and count[1]} edits, there are {len(edits)}")


def links(wrong):
    for page in PAGES:
        for target in re.findall(r"\]\(([^)#\s]+)[^)]*\)", text(page)):
            if "://" not in target and not (page.parent / target).exists():
                wrong.append(f"{page.relative_to(ROOT)}: no {target}")


def names(wrong):
    """Any name in backticks that looks like one of the repository's: with a capital inside, a hyphen, an underscore or a slash."""
    tree = [p for folder in ("crates", "tests", "tools", "bench", "include", "examples", "nets") for p in (ROOT / folder).rglob("*") if p.is_file() and "out" not in p.parts]
    tree += [ROOT / "crates.txt", ROOT / "test", ROOT / "ask", ROOT / "fleet"]
    known = {name for p in tree for name in (p.name, p.stem, p.parent.name)}
    for path in tree:
        if path.suffix not in {".net", ".pyc"} and path.name != "stdin" and path != pathlib.Path(__file__):
            known |= set(re.findall(r"[^\s(){}\[\].,;:«»`|<>&*=\"']+", text(path)))
    paths = "\n".join(str(p.relative_to(ROOT)) for p in [*tree, *PAGES])
    for page in PAGES:
        # What tells of earlier trees names what was there then.
        if page.parent.name == "landings" or page.name in {"PORT.md", "DESIGN-PASS.md"}:
            continue
        for number, line in enumerate(text(page).splitlines(), 1):
            for name in NAMED.findall(line):
                name = name.strip(".,:").removeprefix("./")
                if "NAME" in name or name.startswith("target/") or name.endswith("-"):
                    continue
                looks = re.fullmatch(r"[A-Za-z][\w′/.-]*", name) and re.search(r"[a-z][A-Z]|[-_/]|^[a-z]+s$", name)
                if looks and name not in known | ELSEWHERE and name not in paths and not all(part in known for part in name.split(".")):
                    wrong.append(f"{page.relative_to(ROOT)}:{number}: nothing is called {name}")


def placeholders(wrong):
    for page in PAGES:
        for found in PLACEHOLDER.finditer(text(page)):
            number = text(page).count("\n", 0, found.start()) + 1
            wrong.append(f"{page.relative_to(ROOT)}:{number}: `{' '.join(found[0].split())}` stands for what is still to be written")
        for number, line in enumerate(text(page).splitlines(), 1):
            for cell in cells_of(line) if line.startswith("|") else []:
                if MARK_ALONE.fullmatch(cell):
                    wrong.append(f"{page.relative_to(ROOT)}:{number}: a cell `{cell}` stands for what is still to be written")


def main():
    wrong = []
    for look in (reading, tightness, links, names, placeholders):
        look(wrong)
    print("\n".join(wrong) if wrong else "pages: ok")
    sys.exit(bool(wrong))


main()
