"""What tests/wrong and tests/promises both know of sources and of wrong versions.

A wrong version is an edit, crates/NAME/must-fail/LABEL.edit or crates/NAME/wrong/LABEL.edit: `rt ci` tries the first kind, tests/wrong
both. Its first line says what it breaks; `# refused at: PLACE, FACT` names the function and the goal of its proof, or the file
and the law, that refuse it; then come replacements by rt's rules, `file:`, `old:` and `new:`.
"""
import collections
import glob
import os
import re

# Its name has its type before it; a clause is its kind and its text; the head begins at `head`, the body goes from `start` to `end`.
Function = collections.namedtuple("Function", "public name clauses head start end")
FACT = "# refused at: "
KINDS = ("must-fail", "wrong")


def crates():
    """The crates, in the order of crates.txt."""
    return [line.split(":")[0].split()[0] for line in open("crates.txt") if ":" in line.split("#")[0]]


def edits_of(crate, *kinds):
    """The crate's edits of the kinds asked for, by label."""
    found = [path for kind in kinds or KINDS for path in glob.glob("crates/%s/%s/*.edit" % (crate, kind))]
    return sorted(found, key=label_of)


def label_of(edit):
    return os.path.basename(edit)[:-len(".edit")]


def broken_by(edit):
    """What the edit breaks, in words."""
    return open(edit).readline().rstrip("\n")[2:]


def fact_of(edit):
    """The function, or the file of a law, and the fact; two empty words where the edit names none."""
    line = next((line for line in open(edit).read().split("\n") if line.startswith(FACT)), FACT + ", ")
    return tuple((line[len(FACT):].split(", ") + [""])[:2])


def write_fact(edit, place, fact):
    lines = [line for line in open(edit).read().split("\n") if not line.startswith(FACT)]
    lines.insert(1, "%s%s, %s" % (FACT, place, fact))
    open(edit, "w").write("\n".join(lines))


def replacements(edit):
    """(file, old, new) of each."""
    file = old = None
    for line in open(edit).read().split("\n"):
        if line.startswith("file: "):
            file = line[6:]
        elif line.startswith("old: "):
            old = line[5:]
        elif line.startswith("new:"):
            yield file, old, line[4:].removeprefix(" ")


def apply(folder, edit):
    """Makes the edit's replacements in the crate at `folder`. What is wrong with it, or nothing."""
    count = 0
    for file, old, new in replacements(edit):
        if not re.match(r"(src|specs)/(?!.*\.\.)", file or ""):
            return "a 'file:' line names no file under src/ or specs/"
        path = folder + "/" + file
        text = open(path).read() if os.path.isfile(path) else ""
        if not old or text.count(old) != 1:
            return "an 'old:' text does not stand once in " + file
        open(path, "w").write(text.replace(old, new))
        count += 1
    return "" if count else "it has no 'old:' and 'new:' pair"


def closing(text, i):
    """The place behind the closing brace of the one at i."""
    depth = 0
    while True:
        depth += {"{": 1, "}": -1}.get(text[i], 0)
        i += 1
        if depth == 0:
            return i


def named(of, trait, arguments):
    """How the check names an impl: after its type, or `OfTrait`, with the trait's arguments behind it."""
    first = lambda word: word[:1].upper() + word[1:]
    return first(of) + first(trait) + "".join(first(a) for a in re.findall(r"\w+", arguments or "")) if trait else of


def functions(text):
    """The functions of a source, in its order. Those of a trait's impl are as public as the trait, and what the impl gives for the
    trait's promise is theirs."""
    private = re.findall(r"^(?:pub\(crate\) )?trait (\w+)", text, re.M)
    head = r"^impl(?:<[^>]*>)? (?:([\w:]+?)(?:<([^>]*)>)? for )?(\w+)[^{\n]*\{"
    kinds = [(named(m.group(3), (m.group(1) or "").split("::")[-1], m.group(2)), m.end() - 1, closing(text, m.end() - 1), m.group(1)) for m in re.finditer(head, text, re.M)]
    for m in re.finditer(r"^ *(pub(?:\(crate\))? )?(?:extern \"C\" )?fn (\w+)", text, re.M):
        kind, a, b, trait = next((k for k in kinds if k[1] < m.start() < k[2]), ("", 0, 0, None))
        i, clauses = m.end(), []
        for given in re.finditer(r"^ *ghost %s_gives = \{" % m.group(2), text[a:b], re.M):
            clauses.append(("ensures", re.sub(r"\s+", " ", text[a + given.end():closing(text, a + given.end() - 1) - 1]).strip()))
        while True:
            k = re.compile(r"(requires|ensures)\s*\w*\s*\{|\{").search(text, i)
            if not k.group(1):
                break
            i = closing(text, k.end() - 1)
            clauses.append((k.group(1), re.sub(r"\s+", " ", text[k.end():i - 1]).strip()))
        name = kind + "." + m.group(2) if kind else m.group(2)
        yield Function(m.group(1) == "pub " or bool(trait) and trait not in private, name, clauses, m.start(), k.end() - 1, closing(text, k.end() - 1))


def module_of(file):
    """What stands before the names of a source's functions."""
    name = os.path.basename(file)[:-len(".rt")]
    return "" if name in ("lib", "main") else name + "."


def function_at(folder, file, line):
    """The function that has a line of a source."""
    lines = open("%s/src/%s.rt" % (folder, file)).read().split("\n")
    # What is said of a whole function is said at its first attribute.
    while lines[line - 1].lstrip().startswith("#["):
        line += 1
    end = len("\n".join(lines[:line]))
    names = [f.name for f in functions("\n".join(lines)) if f.head < end]
    return module_of(file + ".rt") + names[-1] if names else ""


def refusals(folder, log):
    """All places that a log of the prover names, in its order: a function and a goal of its proof, or a file and a law. What is refused
    only because something before it was is left out, and what says that a proof file does not fit the code any more is no fact."""
    places = r"/(proofs|specs)/([^\s:]*)\.antt:\d+:\d+: error: `([^`]*)`|/src/(\w+)\.rt:(\d+):\d+: it is not proved that .* \(`([^`]*)`\)"
    for m in re.finditer(places, log):
        said = log[m.start():].split("\n/", 1)[0]
        walk = re.match(r"(.*)/(?:Answers|Invariants|Proof)$", m.group(2) or "")
        if m.group(4):
            yield function_at(folder, m.group(4), int(m.group(5))), m.group(6)
        elif "which was rejected" in said:
            continue
        elif re.search(r"that can be named from here|has no\s+field", said):
            yield "a proof file that does not fit", m.group(3)
        elif walk:
            yield walk.group(1).replace("/", "."), m.group(3)
        else:
            yield "%s/%s.antt" % m.group(1, 2), m.group(3)
