#!/usr/bin/env python3
"""Says which paths, crates and files that the documents name in backquotes are not there. It prints them, and ends with 1 where there are any."""
import pathlib
import re
import sys

TOP = pathlib.Path(__file__).resolve().parent.parent
CRATES = TOP / "crates"


def is_there(name):
    """Whether a name in backquotes is that of a crate, or a path below one or below the top."""
    base = name.split("::")[0]
    for root in (TOP, CRATES):
        path = root / base
        if path.exists() or any(path.with_suffix(end).exists() for end in (".antt", ".rt")):
            return True
    return False


def main():
    missing = []
    pages = [TOP / "README.md", *sorted((TOP / "docs").glob("*.md")), *sorted(CRATES.glob("*/README.md"))]
    for page in pages:
        for number, line in enumerate(page.read_text().splitlines(), 1):
            for name in re.findall(r"`((?:model|acl|opening|docs|tools|crates)[_/][a-z_]*(?:/[A-Za-z_./]*)?)`", line):
                if not is_there(name):
                    missing.append(f"{page.relative_to(TOP)}:{number}: {name}")
    print("\n".join(missing))
    return 1 if missing else 0


if __name__ == "__main__":
    sys.exit(main())
