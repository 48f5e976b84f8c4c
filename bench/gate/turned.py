"""The pairs of the edits of several wrong bodies, the function that each pair turns, and its copies. It is no script: edits.py uses it."""
import collections
import pathlib
import re

# The folder of a crate in which such edits stand; the gate of the kit tries those of must-fail/ alone.
FOLDER = "must-fail-each"
HEAD = re.compile(r"( *)(?:pub(?:\([^)]*\))? )?fn (\w+)")
# A type or a trait by its path, without what stands in angle brackets.
NAME = re.compile(r"(?:&(?:'\w+ )?(?:mut )?)?(?:\w+::)*(\w+)")
# A function with a body: the name by which the prover finds it, the line that its attributes begin with, that of its own
# name, those of the braces around the body, and whether a trait asks for it.
Function = collections.namedtuple("Function", "name begins named first last has_trait")


class Pair:
    """One wrong body: its edit, its place in it from 1, the file, what is replaced by what, and the function that has it, or what is behind the name of the copy that has it."""

    def __init__(self, edit, number, file):
        self.edit, self.number, self.file, self.changes, self.function, self.behind = edit, number, file, [], None, ""

    def __str__(self):
        return f"{self.edit}, pair {self.number}"

    def add(self, old, new, text):
        """Adds a replacement. All of one wrong body stand in one function, or it has none."""
        function = function_at(self.file, text, old)
        self.function = function if not self.changes or function == self.function else None
        self.changes.append((old, new))

    def name(self):
        """Returns the name of the function, or of its copy, that has this body in a check of several."""
        return self.function + self.behind

    def told(self):
        """Returns what is replaced first."""
        return self.changes[0][0].strip()

    def alone(self):
        """Returns the pair as an edit of its own."""
        return f"file: {self.file}\n" + "".join(f"old: {old}\nnew:{new}\n" for old, new in self.changes)


def is_merged(edit):
    return edit.parent.name == FOLDER


def merged_edits(crate):
    """Returns the crate's edits of several wrong bodies, by name."""
    return sorted(pathlib.Path(crate.folder, FOLDER).glob("*.edit"))


def pairs_of(crate, edit):
    """Returns the pairs of an edit, in its order. A line 'and old:' goes on with the wrong body before it."""
    file, old, goes_on, pairs, texts = "", "", False, [], {}
    for line in edit.read_text(encoding="utf-8").split("\n"):
        if line.startswith("file: "):
            file = line[len("file: ") :].strip()
            texts[file] = pathlib.Path(crate.folder, file).read_text(encoding="utf-8")
        elif line.startswith(("old: ", "and old: ")):
            goes_on = line.startswith("and ")
            old = line.removeprefix("and ")[len("old: ") :]
        elif line.startswith("new:"):
            if not goes_on:
                pairs.append(Pair(edit.stem, len(pairs) + 1, file))
            pairs[-1].add(old, line[len("new:") :], texts[file])
    return pairs


def behind_brackets(text):
    """Returns what follows the angle brackets that a text begins with."""
    depth = 0
    for at, it in enumerate(text):
        depth += (it == "<") - (it == ">" and text[at - 1] != "-")
        if it == ">" and depth == 0:
            return text[at + 1 :]
    return text


def owner_of(line):
    """Returns what the prover calls the impl that begins so: its type, then its trait and what that is of, if it has one, and whether it has."""
    head = line.removeprefix("impl")
    head = (behind_brackets(head) if head.startswith("<") else head).split("{")[0].split(" where ")[0].strip()
    trait, _, of = head.rpartition(" for ")
    # (a trait of &'a mut Keeper<F> stands at RefMutKeeper and its name)
    borrowed = re.match(r"&(?:'\w+ )?(mut )?", of)
    named = ("RefMut" if borrowed[1] else "Ref") if borrowed else ""
    named += NAME.match(of)[1]
    if not trait and not line.startswith("impl<") and "<" in of:
        # (the methods of Numbered<TcpStream> alone stand at Numbered+TcpStream)
        # (a lifetime is not part of a name: the methods of Entries<'_> stand at Entries)
        named += "".join(f"+{it}" for it in re.findall(r"(?<!')\b\w+", of[of.index("<") :]))
    if trait:
        if not line.startswith("impl<") and "<" in of:
            # (a trait of Arc<Row> alone stands at ArcRow and its name)
            named += "".join(re.findall(r"(?<!')\b\w+", of[of.index("<") :]))
        named += NAME.match(trait)[1]
        # (From<AllocFailed<T>> is FromAllocFailed, without the parameter)
        inside = re.search(r"<(.*)>", trait)
        named += "".join(it[0].upper() + it[1:] for it in re.findall(r"\w+", inside[1]) if len(it) > 1) if inside else ""
    return named, bool(trait)


def functions_of(file, text):
    """Returns the functions of a file that have a body of several lines, as rt fmt lays them out, but for those of a trait."""
    lines, found, owner = text.split("\n"), [], ""
    path = [it for it in file.removeprefix("src/").removesuffix(".rt").split("/") if it not in ("lib", "main", "mod")]
    for at, line in enumerate(lines):
        if re.match(r"(pub(\([^)]*\))? )?(impl|trait)\b", line):
            owner = " ".join(it.strip() for it in lines[at : next(it for it in range(at, len(lines)) if "{" in lines[it]) + 1])
        head = HEAD.match(line)
        if not head or head[1] and not owner.startswith("impl"):
            continue
        end = next((it for it in range(at, len(lines)) if lines[it].rstrip(";") == f"{head[1]}}}"), at)
        opens = re.compile(rf"{head[1]}(\{{|\).* \{{)$")
        first = next((it for it in range(at, end) if opens.match(lines[it]) or it == at and line.endswith("{")), end)
        if first < end:
            named, has_trait = owner_of(owner) if head[1] else ("", False)
            # (a method without a trait has the path of its type, which may stand in another file)
            name = "::".join([*path * (has_trait or not named), *[named] * bool(named), head[2]])
            begins = next(it for it in range(at, -1, -1) if not lines[it - 1].strip().startswith(("#[", "//")) or it == 0)
            found.append(Function(name, begins, at, first, end, has_trait))
    return found


def function_at(file, text, old):
    """Returns the function in whose body the text stands once, or None where it is in none."""
    if text.count(old) != 1:
        return None
    place = text[: text.index(old) + len(old) - len(old.lstrip())].count("\n")
    return next((it.name for it in functions_of(file, text) if it.first < place < it.last), None)


def proofs_of(folder, function):
    """Returns the folders of the proof files of a function, of which there is one, or none where the prover needs no file."""
    return sorted(it for it in pathlib.Path(folder, "proofs").glob(f"**/{function.replace('::', '/')}") if it.is_dir())


def can_be_copied(crate, pair, behind):
    """Returns whether a copy of the function that a pair turns may stand behind it, with these letters behind its name."""
    text = pathlib.Path(crate.folder, pair.file).read_text(encoding="utf-8")
    own = next(it for it in functions_of(pair.file, text) if it.name == pair.function)
    # (a trait asks for one function of a name; a proof by hand states the function's own theorem)
    is_by_hand = any((it / "Proof.antt").exists() for it in proofs_of(crate.folder, pair.function))
    return not own.has_trait and not is_by_hand and own.name != "main" and f"{own.name.rpartition('::')[2]}{behind}" not in text


def with_copies(file, text, turned):
    """Returns the text of a file with copies of its functions, each behind its function, by the pairs that have them, each with the text of the file that it is copied from."""
    lines = text.split("\n")
    # (a pair replaces lines by as many, so a function stands at the same lines in each text)
    found = {it.name: it for it in functions_of(file, text)}
    for pair, source in sorted(turned, key=lambda it: found[it[0].function].last, reverse=True):
        own = found[pair.function]
        copy = source.split("\n")[own.begins : own.last + 1]
        at = own.named - own.begins
        copy[at] = re.sub(r"\bfn \w+", rf"\g<0>{pair.behind}", copy[at], count=1)
        lines[own.last + 1 : own.last + 1] = ["", *copy]
    return "\n".join(lines)


def copy_proofs(crate, folder, pair):
    """Copies the proof files of the function that a pair turns for the copy of it that has the pair, in a folder with the crate's files."""
    for own in proofs_of(folder, pair.function):
        path = ".".join(own.relative_to(pathlib.Path(folder, "proofs")).parts)
        named = re.compile(rf"\bRattle\.{crate.name}\.(?:proofs|specs\.contracts)\.{re.escape(path)}(?=[.\s])")
        for it in own.rglob("*.antt"):
            to = own.parent / f"{own.name}{pair.behind}" / it.relative_to(own)
            to.parent.mkdir(parents=True, exist_ok=True)
            to.write_text(named.sub(rf"\g<0>{pair.behind}", it.read_text(encoding="utf-8")), encoding="utf-8")


def lacks_proofs(crate, pair, path):
    """Returns whether a copy was left without the proof files that its function has, by where the prover looked for the copy's."""
    looked = pathlib.Path(crate.folder, path).parent
    own = looked.with_name(looked.name.removesuffix(pair.behind))
    return pair.behind != "" and own.is_dir() and own not in proofs_of(crate.folder, pair.function)


def bared(file, text, kept):
    """Returns the text of a file with the bodies of all functions left out but of those that are kept."""
    lines = text.split("\n")
    for it in functions_of(file, text):
        if it.name not in kept:
            lines[it.first + 1 : it.last] = ["unreachable!()"] + [None] * (it.last - it.first - 2)
    return "\n".join(it for it in lines if it is not None)

