"""What the documents name: each name of docs/DEFINITIONS.md, docs/INSIDE.md and docs/HEADLINE.md stands in its file, and each of a crate's
page somewhere, a call at its type or its module."""
import functools
import glob
import os
import re

from checking import TOP, count, read

SPAN = re.compile(r"`([^`]+)`")
NAME = re.compile(r"[A-Za-z_][\w']*")
CALL = re.compile(r"\w+::\w+")
ITEM = re.compile(r"^(?!where\b)(?=[\w#/}])", re.MULTILINE)  # where an item, its attribute, its comment or its closing brace begins
OWNER = re.compile(r"(?:pub(?:\([a-z]+\))? )?(?:unsafe )?(impl|trait|enum)\b([^{]*)")
FUNCTION = re.compile(r"\bfn (\w+)")


@functools.cache
def text_of(crate, file):
    """The text of a crate's file of this name, or of its path's end; None where there is none."""
    folder = os.path.join(TOP, "crates", crate)
    found = glob.glob(os.path.join(folder, "**", file), recursive=True)
    texts = [read(os.path.dirname(path), os.path.basename(path)) for path in sorted(found) if f"{os.sep}proofs{os.sep}" not in path]
    return "\n".join(texts) if texts else None


def is_crate(word):
    return os.path.isdir(os.path.join(TOP, "crates", word))


def misplaced_in(place, crate):
    """How many names a row's place has, and which of them do not stand in their file."""
    file, names, wrong = None, 0, []
    for word in SPAN.findall(place):
        if word.endswith((".antt", ".rt")):
            file = word
            if text_of(crate, file) is None:
                wrong.append(f"{crate}/{file}")
        elif is_crate(word):
            crate, file = word, None
        elif file and NAME.fullmatch(word):
            names += 1
            if not re.search(rf"(?<![\w']){re.escape(word)}(?![\w'])", text_of(crate, file) or ""):
                wrong.append(f"{word} in {crate}/{file}")
    return names, wrong


def usual_crate(line, before):
    """The crate that a table's places are in where they name none: the latest that the text before it names."""
    named = [word for word in SPAN.findall(line) if is_crate(word)]
    return named[-1] if named else before


def misplaced(text):
    """How many names the tables' places have, and which of them do not stand in their file."""
    names, wrong, crate = 0, [], ""
    for line in text.splitlines():
        if not line.startswith("|"):
            crate = usual_crate(line, crate)
        cells = line.split(" | ")
        if line.startswith("| ") and len(cells) >= 3:
            more, bad = misplaced_in(cells[2], crate)
            names, wrong = names + more, wrong + bad
    return names, wrong


def check_names():
    for page, least in [("DEFINITIONS", 400), ("INSIDE", 300)]:
        names, wrong = misplaced(read(os.path.join(TOP, "docs"), f"{page}.md"))
        count(f"{page}: each name stands in its file", names > least and not wrong, "; ".join(wrong[:9]))
    text = read(os.path.join(TOP, "docs"), "DEFINITIONS.md")
    _, found = misplaced(text.replace("`inverse`", "`inverted`").replace("`TcpTable.antt`", "`TcpTables.antt`"))
    count("DEFINITIONS: a name or a file that is gone is told", len(found) >= 2 and any("inverted" in it for it in found), str(found))


def check_headline():
    """Each part of the headline has its names, of definitions and of tests, and the parts are the whole sentence."""
    rows = [line.split(" | ") for line in read(TOP, "docs", "HEADLINE.md").splitlines() if line.startswith("| ")]
    found = [misplaced_in(cell, "") for row in rows for cell in row[2:4]]
    names, wrong = sum(number for number, _ in found), [name for _, names in found for name in names]
    count("HEADLINE: each name stands in its file", names > 60 and not wrong, "; ".join(wrong[:9]))
    _, gone = misplaced_in("`history_book`, `Legality.antt`: `may_happen`, `may_not_happen`; `Legal.antt`: `may_happen`", "")
    count("HEADLINE: a name or a file that is gone is told", len(gone) == 3, str(gone))
    sentence = re.search(r"^> \*\*(.+)\*\*$", read(TOP, "README.md"), re.MULTILINE)[1]
    parts = [row[0].removeprefix("| ") for row in rows]
    count("HEADLINE: its parts are the README's sentence", sentence in " ".join(parts), " ".join(parts))
    count("HEADLINE: a part that is left out is told", sentence not in " ".join(parts[:3] + parts[4:]))


@functools.cache
def all_names():
    """The words of the sources and the definitions of all crates."""
    files = glob.glob(os.path.join(TOP, "crates", "*", "src", "**", "*.rt"), recursive=True)
    files += glob.glob(os.path.join(TOP, "crates", "*", "specs", "**", "*.antt"), recursive=True)
    return frozenset(name for file in sorted(files) for name in NAME.findall(read(file)))


def calls_of(module, text):
    """The functions and variants of a source, each behind its type, its trait or its module, as `Type::name`."""
    found = set()
    for item in ITEM.split(text):
        head = OWNER.match(item)
        owners = NAME.findall(head[2]) if head else [module]
        names = NAME.findall(item) if head and head[1] == "enum" else FUNCTION.findall(item)
        found.update(f"{owner}::{name}" for owner in owners for name in names)
    return found


def module_of(file):
    """The module of a source: that of lib.rt is its crate."""
    module = os.path.basename(file).removesuffix(".rt")
    return os.path.basename(os.path.dirname(os.path.dirname(file))) if module == "lib" else module


@functools.cache
def all_calls():
    """The functions and variants of all crates."""
    files = sorted(glob.glob(os.path.join(TOP, "crates", "*", "src", "**", "*.rt"), recursive=True))
    return frozenset().union(*(calls_of(module_of(file), read(file)) for file in files))


def unknown_in(page):
    """The names of a crate's page that stand in no source and no definition, and those `Type::call` that the type does not have; a word
    without capitals or `_` may be anything."""
    words = set(SPAN.findall(page))
    names = {word for word in words if NAME.fullmatch(word) and (not word.islower() or "_" in word)}
    gone = {name for name in names if not is_crate(name) and name not in all_names()}
    return sorted(gone | {word for word in words if CALL.fullmatch(word) and word not in all_calls()})


def check_crate_pages():
    pages = sorted(glob.glob(os.path.join(TOP, "crates", "*", "README.md")))
    long = [page for page in pages if len(read(page).split()) > 600]
    count("crates: a page has at most 600 words", pages and not long, "; ".join(long))
    unknown = {page: unknown_in(read(page)) for page in pages}
    count("crates: what a page names is there", not any(unknown.values()), str({page: names for page, names in unknown.items() if names}))
    count("crates: a name that is gone is told", unknown_in("`IsNowhere` and `is_valid` and `nowhere_at_all`") == ["IsNowhere", "nowhere_at_all"])
    found = unknown_in("`Grid::at`, `Grid::split`, `Nobody::at`, `Sink::write`, `Why::Flushed`, `Why::Wished`, `classify::classify`, `classify::handle`")
    count("crates: a call that its type does not have is told", found == ["Grid::split", "Nobody::at", "Why::Wished", "classify::handle"], found)


def check_all():
    check_names()
    check_headline()
    check_crate_pages()
