"""Edits tried together: several wrong changes of a crate in one check of it.

What a function is proved from is its own body and the contracts of what it calls. So wrong bodies of several functions
stand in one copy of the crate, a round, and one check tells of each function by name whether it is proved. An edit is
refused where the function that it changes is named for its own failure; the check is asked for these functions alone. One
whose function is only told to call what isn't proved goes into a further round, without what it calls. One whose function is
still proved, and one that changes no function, is tried by itself, by a check of the whole crate: then the crate must be
refused, by whatever function.
"""

import dataclasses
import pathlib
import re
import shutil
import subprocess
import sys
import tempfile
import threading
import time

PARTS = ("src", "specs", "proofs")

# How many edits are tried in one check at the most: a check of so many takes a few minutes.
ROUND = 12

# The checks that run, and whether no further one is to begin.
RUNNING, ENDED = set(), threading.Event()

# The head of a function, as `rt fmt` lays it out: its indentation and its name.
HEAD = re.compile(r'( *)(?:pub(?:\([^)]*\))? )?(?:(?:const|unsafe|final|extern "C") )*fn (\w+)')

# The head of an impl of no trait, which a check names by its type, whatever file it stands in.
INHERENT = re.compile(r"(?!.* for )impl(?:<.*?>)? (\w+)\b")

# A line of a function's head behind its first one, or the brace that opens its body.
HEAD_GOES_ON = re.compile(r" *([{)]|requires|ensures|ghost|where|decreases|->)")

# What the prover says of a function, a type or an impl.
VERDICT = re.compile(r"(?:fn|impl|struct|enum|trait|closure) (\S+?): (.*)")

# Where a goal stayed open, or what was refused: a file, a line and words.
PLACE = re.compile(r"(?:note: |error: )?(?:\./)?((?:src|specs|proofs)/\S+?):(\d+):\d+: (.*)")

# Words of an error in a proof that names what the edit took away: they say nothing of a contract.
TAKEN_AWAY = re.compile(r"has no field|is not in scope|has no `|was not admitted")

# Words of an error that another one brings.
DEPENDS = re.compile(r"declarations? that depends? on .*, which (?:was|were) rejected")

# What a function calls isn't proved.
CALLS = re.compile(r"it calls (.*), which (?:is|are) not proved")


@dataclasses.dataclass
class Written:
    """An edit as it is written: its name, the promise that it breaks, where one is named, and its lines 'file:', 'old:' and 'new:'."""

    name: str
    promise: str
    lines: list


@dataclasses.dataclass
class Edit:
    """A wrong change of a crate: the texts that it replaces, in order, as (file, old, new)."""

    name: str
    promise: str
    changes: list
    # The functions that it changes, as (file, name); the name is empty where a line is in no function.
    functions: set
    # Edits that aren't tried beside it: they change what its function calls.
    avoided: set = dataclasses.field(default_factory=set)
    is_alone: bool = False


@dataclasses.dataclass
class Verdict:
    """What became of an edit: whether it was refused, and by which goal of which function, or why it wasn't."""

    edit: Edit
    is_refused: bool
    why: str
    # A proof names what the edit took away, and nothing else is told.
    is_by_names: bool = False


def folder_of_kit():
    """The folder of the Rattle kit; where there is none, a line says so and ends the whole."""
    if not shutil.which("rt"):
        sys.exit(f"{pathlib.Path(sys.argv[0]).name}: this needs rt, the command of the Rattle kit, which is not on the path; without it, rust/check tests what cargo builds")
    return pathlib.Path(subprocess.run(["rt", "doc"], stdout=subprocess.PIPE, text=True, check=True).stdout.strip()).parent


def are_of_ci(crates):
    """Whether all libraries below these crates are those that `rt ci` made. At its end `rt ci` puts back what earlier commands had built, each
    library with a stamp, and statements fit only the libraries over which they were proved: so with one of those below, none is of use, and
    a line says so. Where some library isn't there, a line says what to do and ends the whole."""
    below = {it: crate.rlib_of(it) for crate in crates for it in crate.below()}
    own = [it for it, rlib in below.items() if (rlib.parent / "stamp").is_file()]
    if own:
        told = f"{len(own)} of the {len(below)} libraries in crates/*/out are not of `rt ci` ({own[0]}, ..)"
        print(f"{pathlib.Path(sys.argv[0]).name}: {told}: `rt lib` proves what doesn't fit", file=sys.stderr, flush=True)
        return False
    lacking = [it for it, rlib in below.items() if not (rlib / "format").is_file()]
    if lacking:
        sys.exit(f"{pathlib.Path(sys.argv[0]).name}: there is no library of {lacking[0]} in out/: run `rt ci` first, or don't ask for what follows it")
    return True


def listed(root):
    """The libraries that each crate of crates.txt names."""
    lines = {}
    for line in (root / "crates.txt").read_text(encoding="utf-8").split("\n"):
        head, colon, names = line.partition("#")[0].partition(":")
        if colon:
            lines[head.split()[0]] = names.split()
    return lines


def written(root, name):
    """The edits of edits/NAME.edits, in their order: paragraphs whose first line is 'NAME' or 'NAME: PROMISE'."""
    file = root / f"edits/{name}.edits"
    text = file.read_text(encoding="utf-8").strip("\n") if file.is_file() else ""
    parts = [it.split("\n") for it in re.split(r"\n{2,}", text) if it]
    return [Written(*map(str.strip, head.partition(":")[::2]), lines) for head, *lines in parts]


def written_for_gate(root, name):
    """The edits that the gate tries one by one: each a file of its own, whose name is the edit's."""
    files = sorted(root.glob(f"crates/{name}/must-fail/*.edit"))
    return [Written(it.stem, "", it.read_text(encoding="utf-8").rstrip("\n").split("\n")) for it in files]


def changes_in(lines):
    """The changes that the lines of an edit name."""
    changes, path, old = [], "", None
    for line in lines:
        if line.startswith("file: "):
            path = line[len("file: ") :].strip()
        elif line.startswith("old: "):
            old = line[len("old: ") :]
        elif line.startswith("new:") and old is not None:
            changes.append((path, old, line[len("new:") :].removeprefix(" ")))
            old = None
    return changes


def function_at(lines, at):
    """The name of the innermost function whose text has this line, behind its type's in an impl of no trait; empty where
    no function has it."""
    for start in range(at, -1, -1):
        head = HEAD.match(lines[start])
        if head and end_of(lines, start, head[1]) >= at:
            above = next((it for it in reversed(lines[:start]) if it and not it.startswith((" ", "}", "{"))), "")
            owner = INHERENT.match(above) if head[1] else None
            return f"{owner[1]}::{head[2]}" if owner else head[2]
    return ""


def end_of(lines, start, indent):
    """The last line of the function whose head is there."""
    depth = 0
    for at in range(start, len(lines)):
        depth += lines[at].count("{") - lines[at].count("}")
        is_closed = depth == 0 and lines[at].endswith(("}", ";"))
        below = next((it for it in lines[at + 1 :] if not it.lstrip().startswith("//")), "")
        if lines[at] == f"{indent}}}" or (is_closed and not HEAD_GOES_ON.match(below)):
            return at
    return len(lines) - 1


class Crate:
    """A crate of the repository, and what a check of it needs: `lines` has the libraries that each crate names."""

    def __init__(self, root, kit, lines, name):
        self.root, self.kit, self.lines, self.name = root, kit, lines, name
        self.folder = root / "crates" / name

    def below(self):
        """The repository's crates that this one stands on."""
        found, left = [], [*self.lines[self.name]]
        while left:
            name = left.pop()
            if name in self.lines and name not in found:
                found.append(name)
                left += self.lines[name]
        return [it for it in self.lines if it in found]

    def edits(self, without_the_gates):
        """The edits, with those that the gate tries one by one, or without them."""
        gates = [] if without_the_gates else written_for_gate(self.root, self.name)
        return [self.edit(it) for it in (*written(self.root, self.name), *gates)]

    def edit(self, it):
        changes, functions, texts = changes_in(it.lines), set(), {}
        for path, old, new in changes:
            text = texts.get(path) or self.text_of(path)
            before = text[: text.index(old)]
            name = function_at(text.split("\n"), before.count("\n")) if path.startswith("src/") else ""
            functions.add((path, name))
            texts[path] = text.replace(old, new)
        return Edit(f"{self.name}/{it.name}", it.promise, changes, functions, is_alone=("" in {it[1] for it in functions}))

    def applied(self, edits):
        """The texts of the files that these edits change; None where one doesn't fit what those before it left."""
        texts = {}
        for edit in edits:
            for path, old, new in edit.changes:
                text = texts.get(path) or self.text_of(path)
                if text.count(old) != 1:
                    return None
                texts[path] = text.replace(old, new)
        return texts

    def text_of(self, path):
        return (self.folder / path).read_text(encoding="utf-8")

    def paths_for(self, edits):
        """Paths that name the functions that these edits change, and few others; none where some function has no such path."""
        sources = [it.read_text(encoding="utf-8") for it in self.folder.glob("src/**/*.rt")]
        found = set()
        for file, name in sorted({it for edit in edits for it in edit.functions}):
            module = "::".join(it for it in pathlib.PurePath(file).with_suffix("").parts[1:] if it not in ("lib", "main"))
            is_one = sum(len(re.findall(rf"\bfn {name.split('::')[-1]}\b", it)) for it in sources) == 1
            if not name or not (is_one or module):
                return []
            found.add(name.split("::")[-1] if is_one else module)
        return sorted(found)

    def check(self, texts, kept, only):
        """Checks a copy of the crate with these texts in place of its own, over the kept work: only what these paths name, or, where
        there are none, all of it."""
        with tempfile.TemporaryDirectory(prefix="edits-") as name:
            room = pathlib.Path(name)
            for part in PARTS:
                if (self.folder / part).is_dir():
                    shutil.copytree(self.folder / part, room / part)
            for path, text in texts.items():
                (room / path).write_text(text, encoding="utf-8")
            with subprocess.Popen(
                [*self.words(), "--incremental", kept, *(word for it in only for word in ("--only", it))],
                cwd=room,
                stdin=subprocess.DEVNULL,
                stdout=subprocess.PIPE,
                stderr=subprocess.STDOUT,
                errors="replace",
            ) as check:
                RUNNING.add(check)
                said = check.communicate()[0]
                RUNNING.discard(check)
        return Said(said.rstrip("\n").split("\n"))

    def words(self):
        """The prover and its arguments: the crate over its libraries as out/ has them."""
        top = "main" if (self.folder / "src/main.rt").is_file() else "lib"
        words = [self.kit / "bin/rattle", "check", "--crate-name", self.name, f"src/{top}.rt"]
        named = self.lines[self.name]
        for it in ["std", *(it for it in named if it not in self.lines)]:
            words += ["--extern", f"{it}={self.kit}/rlibs/{it}.rlib"]
        words += ["-L", f"dependency={self.kit}/rlibs"]
        for it in named:
            if it in self.lines:
                words += ["--extern", f"{it}={self.rlib_of(it)}"]
        for it in self.below():
            words += ["-L", f"dependency={self.rlib_of(it).parent}"]
        words += ["--antt-project", self.kit / "rattle/logic/antt-project.json"]
        return [*words, "--logic-built", self.kit / "logic_built", "--jobs", "1"]

    def rlib_of(self, name):
        return self.root / "crates" / name / "out/rlib" / f"{name}.rlib"


class Said:
    """What a check said: of each function whether it is proved, and if not, why and where."""

    def __init__(self, lines):
        self.lines, self.verdicts, self.places = lines, {}, {}
        # What is told of a source stands right above the line on its function.
        above, in_proofs = [], []
        for line in lines:
            found, place = VERDICT.match(line), PLACE.match(line)
            if found:
                self.verdicts[found[1]] = found[2]
                self.places[found[1]], above = above, []
            elif place and place[1].startswith("proofs/"):
                in_proofs.append(place)
            elif place:
                above.append(place)
        # What is told of a proof names the file, which lies at the function's path; a cycle's file has the goals of several functions,
        # each named for its own.
        for path, places in self.places.items():
            *module, name = ["proofs", *path.split("::")[1:]]
            folder, cycle = "/".join([*module, name, ""]), "/".join([*module, "+"])
            places += [it for it in in_proofs if it[1].startswith(folder) or (it[1].startswith(cycle) and f"`{name}-" in it[3])]

    def is_answered(self):
        """Whether the prover judged the crate, or what it was asked for, at all."""
        return self.lines[-1].startswith(("logic=", "only="))

    def is_whole(self):
        """Whether the whole crate was judged."""
        return not self.lines[-1].startswith("only=")

    def is_proved(self):
        return self.lines[-1].startswith("logic=proved")

    def first_words(self):
        told = [it for it in self.lines if ": error" in it or it.startswith(("error", "rattle:"))]
        return (told or self.lines)[0][:200]

    def failed(self):
        """The functions that are named for their own failure."""
        return [it for it, said in self.verdicts.items() if is_own_failure(said)]

    def not_proved_below(self, paths):
        """The functions that these call, or that are called further down, as far as they are said not to be proved."""
        found, left = set(), [*paths]
        while left:
            words = CALLS.search(self.verdicts.get(left.pop(), ""))
            called = re.findall(r"`([^`]*)`", words[1]) if words else []
            left += [it for it in called if it not in found]
            found |= {*called}
        return found

    def goals_of(self, path):
        """The goals of this function that stayed open, each with its place; and whether all that is told are names
        that the edit took away."""
        said, places = self.verdicts[path], self.places[path]
        searched = re.search(r"`search` did not prove (.*?)(?:;|$)", said)
        if searched:
            return f"nothing found for {searched[1]}", False
        errors = [it for it in places if not DEPENDS.search(it[3])]
        telling = [it for it in errors if not TAKEN_AWAY.search(it[3])]
        told = "; ".join(f"{it[1]}:{it[2]}: {it[3]}" for it in (telling or errors or places)[:2])
        return (told or said)[:300], bool(errors) and not telling


def is_own_failure(said):
    """Whether these words on a function tell of its own failure, and not of what it calls or passes on alone."""
    return said.startswith(("not proved", "no proof: expected")) or "did not prove" in said


def paths_of(crate, said, edit):
    """The paths by which a check names the functions that an edit changes: of that type, or of that name in that file."""
    found = []
    for file, name in edit.functions:
        parts = [*pathlib.PurePath(file).with_suffix("").parts[1:]]
        module = "::".join([crate.name, *([] if parts in (["lib"], ["main"]) else parts), ""])
        prefix = f"{crate.name}::" if "::" in name else module
        found += [it for it in said.verdicts if it.startswith(prefix) and it.endswith(f"::{name}")]
    return found


def judged(crate, edit, said, is_alone):
    """The verdict on an edit after a round; None where it has to be tried again."""
    own = [it for it in paths_of(crate, said, edit) if is_own_failure(said.verdicts[it])]
    if not own and is_alone:
        own = said.failed()
    if own:
        told = [(it, *said.goals_of(it)) for it in own]
        # First what tells of a goal, and not of a function that another one waits for.
        told.sort(key=lambda it: (it[2], "it waits for" in it[1]))
        return Verdict(edit, True, f"{told[0][0]}: {told[0][1]}", told[0][2])
    if is_alone:
        return Verdict(edit, False, "NOT REFUSED: the crate is still proved with this edit" if said.is_proved() else f"NO VERDICT: {said.first_words()}")
    return None


def round_of(crate, edits):
    """The edits of the next round: the first, and each further one that changes other functions and fits beside them."""
    chosen = edits[:1]
    for edit in edits[1:]:
        taken = {it for other in chosen for it in other.functions}
        apart = any(edit.name in it.avoided or it.name in edit.avoided for it in chosen)
        alone = edit.is_alone or chosen[0].is_alone or len(chosen) == ROUND
        if not (alone or apart or edit.functions & taken) and crate.applied([*chosen, edit]):
            chosen.append(edit)
    return chosen


def tried(crate, left, kept, tell, ends):
    """Tries these edits of a crate over the kept work, a round at a time until the clock says `ends`, where it isn't None;
    answers the verdicts, the edits that are left and the number of checks."""
    verdicts, checks = [], 0
    while left and not ENDED.is_set() and (ends is None or time.monotonic() < ends):
        chosen = round_of(crate, left)
        left = [it for it in left if it not in chosen]
        parts = [chosen]
        while parts and not ENDED.is_set():
            part = parts.pop()
            # Alone, an edit may be refused by any function.
            only = [] if any(it.is_alone for it in part) else crate.paths_for(part)
            said, checks = crate.check(crate.applied(part), kept, only), checks + 1
            if not said.is_answered() and len(part) > 1:
                # One of them can't be read.
                parts += [part[: len(part) // 2], part[len(part) // 2 :]]
                continue
            found, again = sorted_out(crate, part, said)
            left = again + left
            verdicts += found
            for verdict in found:
                tell(verdict)
    return verdicts, left, checks


def sorted_out(crate, part, said):
    """The verdicts on the edits of a round, and those that are to be tried again."""
    verdicts, again = [], []
    for edit in part:
        verdict = judged(crate, edit, said, len(part) == 1 and said.is_whole() and (edit.is_alone or said.is_answered()))
        if verdict:
            verdicts.append(verdict)
            continue
        called = said.not_proved_below(paths_of(crate, said, edit))
        beside = {it.name for it in part if it is not edit and called & {*paths_of(crate, said, it)}}
        edit.avoided |= beside
        # Nothing is told of its function, or its function is proved: by itself.
        edit.is_alone = not beside
        again.append(edit)
    return verdicts, again
