#!/usr/bin/env python3
"""rules.py: every name that docs/RULES.md points to is there: functions (`crate::name`), must-fail edits (E: crate/label), laws (L:
Module.name of the proofs of crates/format and crates/demands), test logs (T: name of crates/evidence/data/made). Prints what is missing; exit status 1 if any."""
import fnmatch, glob, os, re, sys

ROOT = os.path.join(os.path.dirname(os.path.abspath(__file__)), "..")


def text_of(pattern):
    return "\n".join(open(path, encoding="utf-8").read() for path in sorted(glob.glob(os.path.join(ROOT, pattern), recursive=True)))


CRATES = sorted(os.listdir(os.path.join(ROOT, "crates")))
CODE = {crate: text_of(f"crates/{crate}/src/*.rt") for crate in CRATES}
EDITS = {crate: [os.path.basename(p)[:-5] for p in glob.glob(os.path.join(ROOT, f"crates/{crate}/must-fail/**/*.edit"), recursive=True)] for crate in CRATES}
LOGS = [os.path.basename(p)[:-4] for p in glob.glob(os.path.join(ROOT, "crates/evidence/data/made/*.log"))]


def declared(crate, name):
    """A function, a type, or a variant of a type."""
    return re.search(rf"\b(?:fn|struct|enum)\s+{name}\b", CODE[crate]) or re.search(rf"^\s+{name}\b[(,]", CODE[crate], re.M)


def law_there(module, name):
    text = "".join(text_of(f"crates/{crate}/proofs/{module}.antt") for crate in ("format", "demands"))
    return text and (not name or re.search(rf"^\s*(?:pub )?{re.escape(name)} ", text, re.M))


def functions(cell):
    """Names in backticks, by the crate that they name; one that names none is some crate's."""
    crate = None
    for name in re.findall(r"`([A-Za-z_:]+)`", cell):
        parts = name.split("::")
        if parts[0] in CRATES and len(parts) > 1:
            crate, parts = parts[0], parts[1:]
        elif crate is None or name in CRATES or any(declared(other, name) for other in CRATES):
            continue
        for part in parts:
            if not declared(crate, part):
                yield f"{crate}::{part}"


def listed(kind, cell):
    """The names after a mark, up to the next mark."""
    for run in re.findall(rf"\b{kind}: (.*?)(?= · |; [A-Z`]|\||$)", cell):
        yield from (word.strip(" `.") for word in re.split(r",|;", run))


def edits(cell):
    crate = None
    for word in listed("E", cell):
        found = re.match(r"(?:(\w+)/)?([\w*]+)$", word)
        if not found:
            continue
        crate = found.group(1) or crate
        if not fnmatch.filter(EDITS.get(crate, []), found.group(2)):
            yield f"E: {crate}/{found.group(2)}"


def laws(cell):
    module = None
    for word in listed("L", cell):
        found = re.match(r"([A-Z][a-z]\w+)(?:\.([a-z][\w-]*))?$", word) or re.match(r"()([a-z][\w-]*)$", word)
        if not found:
            continue
        module = found.group(1) or module
        if module and not law_there(module, found.group(2)):
            yield f"L: {module}.{found.group(2)}"


def logs(cell):
    for word in listed("T", cell):
        word = word.split(" to ")[0]
        if re.match(r"[a-z][\w.*-]*$", word) and not fnmatch.filter(LOGS, word):
            yield f"T: {word}"


def main():
    missing = 0
    for number, line in enumerate(open(os.path.join(ROOT, "docs/RULES.md"), encoding="utf-8"), 1):
        if not line.startswith("| "):
            continue
        cells = line.split(" | ")
        for cell in cells[1:]:
            for name in [*functions(cell), *edits(cell), *laws(cell), *logs(cell)]:
                print(f"docs/RULES.md:{number}: not there: {name}")
                missing += 1
    print(f"rules.py: {missing} names missing" if missing else "rules.py: every name is there")
    sys.exit(missing > 0)


main()
