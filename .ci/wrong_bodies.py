"""Wrong bodies of the crates: where they stand, what they change, and in which functions. Used by .ci/more and .ci/fast.

A crate's folder must-fail/ holds those that the merge gate tries, NAME.edit. Its folder must-fail/more/ holds the others, NAME.edit.md:
the kit reports any file there that is not named .md as a bad edit.
"""
import dataclasses
import glob
import os
import re

from checking import TOP, read

GATE, MORE = ".edit", ".edit.md"
# How many wrong bodies one check tries at most.
MOST = 10
CALL = re.compile(r"\b([a-z_]\w*)(?:::<[^>]*>)?\(")
# A line of a check that names a place, and what it says where a proof file names what an edit took away.
PLACE = re.compile(r"(?:note: )?(?:\./)?(src|proofs)/(\S+?):(\d+):\d+: (.*)")
NAME_IS_GONE = re.compile(r"has no field|is not in scope|has no `|was not admitted")
# What a check says that could not read a text, and that could not use what was kept of a library.
UNREAD = re.compile(r"(?:\./)?(?:src|specs)/\S+?:\d+:\d+: error: ")
STALE = "Run the lower steps again"
HEAD = re.compile(r"^( *)(?:pub(?:\([a-z]+\))? )?(?:const )?(?:unsafe )?fn (\w+)")


def crates_txt(root):
    """What each crate of crates.txt uses."""
    with open(os.path.join(root, "crates.txt"), encoding="utf-8") as file:
        lines = [line.partition("#")[0].partition(":") for line in file]
    return {name.split()[0]: used.split() for name, _, used in lines if name.strip()}


def own_crates(root):
    """What each crate of crates.txt uses of the repository."""
    uses = crates_txt(root)
    return {name: [it for it in used if it in uses] for name, used in uses.items()}


@dataclasses.dataclass(frozen=True)
class Edit:
    """A wrong body: its crate, its name, its file, and the pairs of texts that it exchanges, each with the file that has them."""

    crate: str
    name: str
    path: str
    pairs: tuple

    def __str__(self):
        return f"{self.crate}/{self.name}"


def pairs_of(text):
    """The pairs of an edit's text, in its order: the file, the old text and the new one. None stands for what is missing."""
    file, old, pairs = None, None, []
    for line in text.split("\n"):
        if line.startswith("file: "):
            file = line[len("file: "):].strip()
        elif line.startswith("old: "):
            old = line[len("old: "):]
        elif line.startswith("new:"):
            pairs.append((file, old, line[len("new:"):].removeprefix(" ")))
            old = None
    return tuple(pairs)


def in_gate(crate):
    """The files of the wrong bodies that the merge gate tries."""
    return sorted(glob.glob(os.path.join(TOP, "crates", crate, "must-fail", f"*{GATE}")))


def in_more(crate):
    """The files of the others."""
    return sorted(glob.glob(os.path.join(TOP, "crates", crate, "must-fail", "more", f"*{MORE}")))


def read_edit(path):
    folder = os.path.dirname(path)
    crate = os.path.dirname(os.path.dirname(folder) if os.path.basename(folder) == "more" else folder)
    name = os.path.basename(path).removesuffix(MORE).removesuffix(GATE)
    return Edit(os.path.basename(crate), name, path, pairs_of(read(path)))


def applied(edit, folder, texts=None):
    """The texts of the files of a crate's folder that an edit changes, begun with those given, and why it cannot be applied; None where it can."""
    texts = dict(texts or {})
    for file, old, new in edit.pairs:
        if not file or not old or not os.path.isfile(os.path.join(folder, file)):
            return texts, "a new text without its file and its old text"
        text = texts[file] if file in texts else read(folder, file)
        if text.count(old) != 1:
            return texts, f"'{old}' stands {text.count(old)} times in {os.path.basename(file)}"
        texts[file] = text.replace(old, new)
    return texts, None if edit.pairs else "it replaces nothing"


def functions_in(text):
    """The functions with a body that a file defines: the name and how many of that name stand before it, and the first and the last line, counted
    from 1."""
    found, begun, seen, attributes = [], [], {}, 0
    for number, line in enumerate(text.split("\n"), 1):
        if head := HEAD.match(line):
            indent, name = head[1], head[2]
            # (what began no further left and has not ended has no body)
            begun = [it for it in begun if len(it[0]) < len(indent)]
            seen[name] = seen.get(name, -1) + 1
            # (a check tells of a function at the first of its attributes)
            begun.append((indent, (name, seen[name]), number - attributes))
        attributes = attributes + 1 if line.lstrip().startswith("#[") else 0
        if begun and (line == begun[-1][0] + "}" or re.match(begun[-1][0] + r"\{.*\}$", line) or head and line.endswith("}")):
            _, which, first = begun.pop()
            found.append((which, first, number))
    return found


def function_at(text, line):
    """The function in which a line stands: the innermost; None where it stands in none."""
    around = [(last - first, which) for which, first, last in functions_in(text) if first <= line <= last]
    return min(around)[1] if around else None


def functions_of(edit, folder):
    """The functions that an edit changes, each with its file; None stands for a place that is in no function."""
    texts, touched = {}, set()
    for file, old, new in edit.pairs:
        text = texts[file] if file in texts else read(folder, file)
        touched.add((file, function_at(text, text.count("\n", 0, text.find(old)) + 1)))
        texts[file] = text.replace(old, new)
    return touched


def calls_of(edit, folder):
    """The names that the functions which an edit changes call, before and after it."""
    found = set()
    for text_of in (lambda file: read(folder, file), lambda file, texts=applied(edit, folder)[0]: texts[file]):
        for file, which in functions_of(edit, folder):
            text = text_of(file)
            lines = text.split("\n")
            for _, first, last in [it for it in functions_in(text) if it[0] == which]:
                found |= set(CALL.findall("\n".join(lines[first:last])))
    return found


@dataclasses.dataclass
class Batch:
    """Wrong bodies that one check tries, with the functions that they change, the names that these call, and the changed texts."""

    edits: list
    touched: set
    called: set
    texts: dict

    def takes(self, touched, called):
        """Whether none of these functions is changed here already, nor calls one that is, nor is called by one, and each change is in a function."""
        names, own = names_of(touched), names_of(self.touched)
        return len(self.edits) < MOST and None not in names | own and not self.touched & touched and not own & called and not names & self.called


def names_of(touched):
    """The names of functions that are changed; None for a place that is in no function."""
    return {which and which[0] for _, which in touched}


def batch_of(edit, folder):
    """An edit in a batch of its own."""
    return Batch([edit], functions_of(edit, folder), calls_of(edit, folder), applied(edit, folder)[0])


def batches_of(edits, folder):
    """The edits of a crate in batches. One that changes what is in no function stands alone."""
    batches = []
    for one in (batch_of(edit, folder) for edit in edits):
        for batch in [it for it in batches if it.takes(one.touched, one.called)]:
            made, why = applied(one.edits[0], folder, batch.texts)
            if not why:
                batch.edits += one.edits
                batch.touched |= one.touched
                batch.called |= one.called
                batch.texts = made
                break
        else:
            batches.append(one)
    return batches


def function_of_proof(path, spans):
    """The function whose answers or invariants stand in this file of proofs/, as proofs/MODULE/FUNCTION/Answers.antt; None where several may be meant."""
    parts = path.split("/")[:-1]
    found = []
    for file, functions in spans.items():
        module = [] if file in ("src/lib.rt", "src/main.rt") else file.removeprefix("src/").removesuffix(".rt").removesuffix("/mod").split("/")
        if parts[: len(module)] == module:
            found += [(file, which) for which, _, _ in functions if which[0] in parts[len(module):]]
    return found[0] if len(found) == 1 else None


def is_verdict(status, said):
    """Whether a check read all texts, and came to say that the crate is not proved: else what it says of goals is no verdict."""
    lines = said.rstrip("\n").split("\n")
    return status == 1 and lines[-1].startswith("logic=not-proved") and STALE not in said and not any(map(UNREAD.match, lines))


def open_goals(status, said):
    """The lines of a check that tell of a goal that is open, each with its place: none of a check without a verdict, and none about a name that is gone."""
    for line in said.split("\n") if is_verdict(status, said) else []:
        place = PLACE.match(line)
        if place and not NAME_IS_GONE.search(place[4]):
            if place[1] == "src" and "it is not proved" in place[4] or place[1] == "proofs" and place[4].startswith("error: "):
                yield place, line


def refusal(status, said):
    """The line by which a check refuses a crate: one about its text where there is one; None where no goal is open but at a name."""
    found = [line for _, line in sorted(open_goals(status, said), key=lambda it: it[0][1] == "proofs")]
    return found[0] if found else None


def refusals(status, said, texts):
    """The functions of edited files that a check refuses by a goal of their own, each with a line that says so: one about its text where there is one."""
    found = {}
    spans = {file: functions_in(text) for file, text in texts.items()}
    for place, line in open_goals(status, said):
        if place[1] == "src":
            file, number = f"src/{place[2]}", int(place[3])
            around = [(last - first, which) for which, first, last in spans.get(file, []) if first <= number <= last]
            which = (file, min(around)[1]) if around else None
        else:
            which = function_of_proof(place[2], spans)
        if which and (which not in found or place[1] == "src" and "proofs/" in found[which].partition(":")[0]):
            found[which] = line
    return found
