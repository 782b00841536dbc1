"""docs/DEFINITIONS.md names each file of specs/ that the claim rests on, with its crate: one with a definition that a clause of `top`
cites, or that such a definition cites, and so on. Types of src/ are left out: they stand there."""
import functools
import os
import re

import name_checks
from checking import TOP, count, read

WORD = r"[A-Za-z_][\w'?]*|>>="
NAMED = rf"◌?(?:{WORD})◌?"
USED = re.compile(rf"(?:{WORD})(?:\.[A-Za-z_][\w'?]*)?")
IMPORT = re.compile(r"^(?:pub )?(?:ghost )?use Rattle\.([\w.]+?)(?:\.\{([^}]*)\}| as (\w+)|;?$)", re.MULTILINE)
HEAD = re.compile(rf"^(?:abbrev |unfoldable )?(?:pub )?(?:record |data )?({NAMED})")
BEGINS = re.compile(rf"^(?:abbrev|unfoldable|pub|record|data)\b|^{NAMED} :", re.MULTILINE)
CONSTRUCTOR = re.compile(r"^  (?:pub )?([\w']+) :", re.MULTILINE)
SKIPPED = re.compile(r'"[^"\n]*"|--.*')


def file_of(module):
    """The file of specs/ of this module, by its path in crates/; None for another project's, and for types of src/."""
    crate, *parts = module.split(".")
    return None if "declared" in parts or not name_checks.is_crate(crate) else os.path.join(crate, *parts) + ".antt"


@functools.cache
def imports_of(text):
    """What a text imports: where each name is defined, and the files that have another name in it."""
    names, files = {}, {}
    for module, several, other in IMPORT.findall(text):
        path = file_of(module)
        if path and not several:
            files[other or module.rpartition(".")[2]] = path
        for name in several.split(",") if path else []:
            there, _, here = name.strip().partition(" as ")
            if there:
                names[(here or there).strip("◌")] = (path, there.strip("◌"))
    return names, files


@functools.cache
def definitions_in(path):
    """The definitions of a file, by name, each with all lines up to the next one; a constructor has those of its type."""
    text = SKIPPED.sub("", read(TOP, "crates", path))
    starts = [found.start() for found in BEGINS.finditer(text)]
    found = {}
    for part in (text[start:end] for start, end in zip(starts, [*starts[1:], len(text)])):
        names = [HEAD.match(part)[1].strip("◌")]
        names += CONSTRUCTOR.findall(part) if re.match(r"(?:pub )?data\b", part) else []
        found.update((name, part) for name in names)
    return found


def cited_in(text, names, files, own):
    """Which definitions a text names."""
    found = set()
    for used in USED.findall(text):
        first, _, rest = used.partition(".")
        found |= {names[first]} if first in names else {own[first]} if first in own else set()
        found |= {(files[first], rest)} if first in files and rest else set()
    return found


def cited_by(path, name):
    own = {other: (path, other) for other in definitions_in(path) if other != name}
    return cited_in(definitions_in(path).get(name, ""), *imports_of(read(TOP, "crates", path)), own)


def rests_on():
    """The definitions that the claim rests on."""
    program = read(TOP, "crates", "replay_top", "src", "program.rt")
    clauses = program.partition("pub fn top")[2].partition("\n{")[0]
    found, new = set(), cited_in(clauses, *imports_of(program), {})
    while new:
        found |= new
        new = {cited for one in new for cited in cited_by(*one)} - found
    return found


def files_in(page):
    """The crate and the file of each place that the page names."""
    found, usual = set(), ""
    for line in page.splitlines():
        cells = line.split(" | ")
        crate = usual
        for word in name_checks.SPAN.findall(cells[2] if line.startswith("| ") and len(cells) >= 3 else line):
            crate = word if name_checks.is_crate(word) else crate
            found |= {f"{crate}/specs/{word}"} if word.endswith(".antt") else set()
        usual = usual if line.startswith("|") else crate
    return found


def missed_in(page, definitions):
    return sorted({path for path, _ in definitions} - files_in(page))


def check_all():
    page, definitions = read(TOP, "docs", "DEFINITIONS.md"), rests_on()
    lost = [f"{name} in {path}" for path, name in sorted(definitions) if name not in definitions_in(path)]
    count("DEFINITIONS: each definition that the claim rests on is found", len(definitions) > 500 and not lost, "; ".join(lost))
    missed = missed_in(page, definitions)
    count("DEFINITIONS: each file that the claim rests on is named", not missed, "; ".join(missed))
    gone = set(missed_in(page.replace("`Placed.antt`", "").replace("`file_text`, `Text.antt`", "`file_text`"), definitions)) - set(missed)
    count("DEFINITIONS: a file that is left out is told", gone == {"file_text/specs/Text.antt", "packet_path/specs/Placed.antt"}, "; ".join(sorted(gone)))
