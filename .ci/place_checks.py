"""docs/ARCHITECTURE.md, "Where to change what": each file that names a variant is named by the page's entry on such a variant.

An entry begins with its title in bold. A span of it names a file by the end of the file's path, in the crate or the folder
that the entry named last; or it names a crate or a folder alone, and then stands for all files of it. Of tests only the crate
has to be named.
"""
import functools
import glob
import os
import re

from checking import TOP, count, read
from name_checks import NAME, SPAN, is_crate

SECTION = "## Where to change what\n"
FOLDERS = ("tools", "measure", ".ci", "docs")
ENDS = (".rt", ".antt", ".py", ".sh", ".html", ".md")
TEST = re.compile(r"/tests?(\.rt|/)|/\w+_tests/")
# Of an entry: how the variant that stands for all of its kind is written in crates, and how in tools/ and measure/.
VARIANTS = {
    "A new kind of event": (r"\b[Uu]nexpect(?!ed)", r"\bunexpect\b"),
    "A new reason of a Destroy": (r"\bDropped\b", r"\bdropped\b"),
    "A new class of verdict": (r"\bContended\b", r"\bCONTENDED\b"),
    "The size of a verdict": (r"\b(kept_)?taken_at\b", r"\btaken_at\b"),
    "A state of TCP": (r"\bLastAck\b|\bLAST_ACK\b", r"\bLAST_ACK\b"),
    "A cell of a TCP table": (r"\btcp_reply\b|\breply_cell\b", r"\bREPLY = "),
    "A link type": (r"\bLink(::|\.TheVariants\b)", r"\bLINKS\b|link == 1\b"),
    "A timeout": (r"\b432_?000\b", r"\b432_?000\b"),
    "The hash": (r"\bbucket_of\b|\bmix\b", r"\bbucket_of\b"),
    "A column of a row": (r"\[UNREPLIED\]", r"\[UNREPLIED\]"),
    "An option, or another form of the words": (r'"zones[ "]|\bzones ?[:=]|\.zones\b|--zones\b', r'"zones"|--zones\b'),
    "How many notes the queue of a thread holds": (r"\bQUEUE\b|capacity ≡ 1024|\bmin 1024\b", r"\bQUEUE\b"),
    "A crossing of the gate": (r"\bCrossing\b", r"\bCrossing\b"),
    "A set of TCP flags that is valid": (r"\bis_valid_flag_set\b|\bflag_sets\b", r"\bVALID_FLAGS\b"),
    "An ICMP type that asks or answers": (r"\bpartner_of\b|\bis_query_type\b", r"\b13: 14\b|\b14, 16, 18\b"),
    "A reason of UNTRACKED": (r"\b[Uu]ntracked(Why)?(::|\.)Protocol\b|\bwhy\.Protocol\b", r"UNTRACKED fragment|\"protocol\", f"),
    "An option of a filter, or of `-G`": (r"\breply_dst\b", r"\breply_dst\b|\"-q\"|-q "),
    "A limit": (r"\b4[_,]?194[_,]?304\b", r"\b4[_,]?194[_,]?304\b"),
    "A kind of file": (r"\b(FileKind|kind)(\.|::)Script\b|\bFileKind\.TheVariants\.\{", r"script bytes"),
}


@functools.cache
def files_of(place):
    """The files of a crate or of a folder at the top, by their paths from the top."""
    if place in FOLDERS:
        found = glob.glob(os.path.join(TOP, place, "*"))
    else:
        found = [one for part in ("src", "specs", "proofs") for one in glob.glob(os.path.join(TOP, "crates", place, part, "**", "*"), recursive=True)]
    return sorted(os.path.relpath(one, TOP) for one in found if os.path.isfile(one))


@functools.cache
def searched():
    """The files in which variants are looked for, by their paths from the top, with what stands in them."""
    paths = [one for place in ("tools", "measure") for one in files_of(place) if not one.endswith(".md")]
    for crate in sorted(os.listdir(os.path.join(TOP, "crates"))):
        paths += [one for one in files_of(crate) if one.split("/")[2] != "proofs"]
    return {path: read(TOP, path) for path in paths}


def files_with(patterns):
    """The files that name a variant."""
    in_crates, beside = map(re.compile, patterns)
    return [path for path, text in searched().items() if (in_crates if path.startswith("crates/") else beside).search(text)]


def entries_of(page):
    """The entries of the section, by their titles."""
    section = page.partition(SECTION)[2].partition("\n## ")[0]
    parts = re.split(r"^\*\*(.+?)\.\*\*\s", section, flags=re.MULTILINE)[1:]
    return dict(zip(parts[::2], parts[1::2]))


def place_of(path):
    return path.split("/")[1 if path.startswith("crates/") else 0]


def named_in(entry):
    """The files that an entry names, by place; and its spans that name no file, though they end as one."""
    named, wrong, place = {}, [], None
    for word in SPAN.findall(entry):
        first, slash, rest = word.partition("/")
        if is_crate(first) or slash and first in FOLDERS:
            place, word = first, rest
            named.setdefault(place, set())
        if word and place:
            found = [path for path in files_of(place) if path.endswith("/" + word)]
            named[place].update(found)
            wrong += [f"{place}/{word}"] if word.endswith(ENDS) and not found else []
    return named, wrong


def missed_in(entry, files):
    """Which of these files an entry does not name."""
    named, _ = named_in(entry)
    missed = []
    for path in files:
        own = named.get(place_of(path))
        is_named = own is not None and (not own or path in own or TEST.search(path))
        missed += [] if is_named else [path]
    return missed


def check_entries(entries):
    for title, patterns in VARIANTS.items():
        files = files_with(patterns)
        missed = missed_in(entries.get(title, ""), files)
        count(f"ARCHITECTURE: {title}: each place is named", len(files) > 3 and not missed, ", ".join(missed))
    wrong = {title: named_in(entry)[1] for title, entry in entries.items()}
    count("ARCHITECTURE: each file that an entry names is there", len(wrong) > 20 and not any(wrong.values()), str({title: it for title, it in wrong.items() if it}))


def check_that_it_fails(entries):
    """Without an entry's spans each file is missed, without one of them this file is, and a new file is."""
    entry, files = entries.get("A new kind of event", ""), files_with(VARIANTS["A new kind of event"])
    zones, outside = "crates/history_book/specs/Zones.antt", "tools/replay_files.py"
    count("ARCHITECTURE: an entry that names nothing is told", missed_in(SPAN.sub("", entry), files) == files)
    found = [missed_in(entry.replace(f"`{gone}`", ""), files) for gone in ("specs/Zones.antt", outside)]
    count("ARCHITECTURE: a file that an entry lost is told", found == [[zones], [outside]], str(found))
    new = ["crates/history_book/src/new.rt", "crates/tuple_core/src/lib.rt", "tools/new"]
    count("ARCHITECTURE: a file that came is told", missed_in(entry, files + new) == new, str(missed_in(entry, files + new)))
    _, wrong = named_in(entry.replace("`specs/Zones.antt`", "`specs/Zoned.antt`"))
    count("ARCHITECTURE: a file that is gone is told", wrong == ["history_book/specs/Zoned.antt"], str(wrong))


def check_names(entries):
    """The other names of the section stand in a source, a definition, a proof or a script; a word without capitals or `_` may be anything."""
    proofs = glob.glob(os.path.join(TOP, "crates", "*", "proofs", "**", "*.antt"), recursive=True)
    there = {word for text in [*searched().values(), *map(read, proofs)] for word in NAME.findall(text)}
    named = {word for entry in entries.values() for word in SPAN.findall(entry) if NAME.fullmatch(word) and ("_" in word or not word.islower())}
    gone = sorted(name for name in named if name not in there and not is_crate(name))
    count("ARCHITECTURE: each name of an entry is there", len(named) > 200 and not gone, ", ".join(gone))


def check_all():
    entries = entries_of(read(TOP, "docs", "ARCHITECTURE.md"))
    check_entries(entries)
    check_that_it_fails(entries)
    check_names(entries)
