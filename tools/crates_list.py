"""What crates.txt says: the layers, the crates of each, and what a crate imports."""
from pathlib import Path

HOME = Path(__file__).resolve().parent.parent


def layers():
    """Each heading, without what follows its colon, with the pairs of a crate under it and the crates of this repository that it
    imports."""
    found = []
    heading = ""
    for line in (HOME / "crates.txt").read_text().splitlines():
        if line.startswith("#"):
            heading = line.lstrip("# ").split(":")[0]
        elif ":" in line:
            crate, imports = line.split(":")
            # A static library has a word behind its name.
            crate = crate.split()[0]
            if not found or found[-1][0] != heading:
                found.append((heading, []))
            found[-1][1].append((crate, imports.split()))
    own = {crate for _, crates in found for crate, _ in crates}
    return [
        (heading, [(crate, [it for it in imports if it in own]) for crate, imports in crates])
        for heading, crates in found
    ]
