#!/usr/bin/env python3
"""Respells this repository's own definitions and lemmas as today's Rattle spells its words: snake case, with `_` in place of a
dash. Run once, at the top, behind the kit's port.py. Functions of src/, exported C names, strings, inputs and outputs keep theirs.

A name counts that a file of specs/ or a file of lemmas in proofs/ declares, and in a Proof.antt the name of the proof itself.
Names that would fall together are told apart by a table below: the lemma gets `_lem`.
"""
import collections
import glob
import re

NAME = r"[^\s(){}\[\].,;\"`:⌜⌝]+"
TOKEN = re.compile(NAME)
# A lemma that would get its definition's name; what the kit's script respelled already stands here by its new name.
APART = {
    "part_length": "part_length_lem", "entry_length": "entry_length_lem", "last_line": "last_line_lem",
    "part-at": "part_at_lem", "complete-by": "complete_by_lem", "record-at": "record_at_lem", "own-start": "own_start_lem",
    "vendor-bytes": "vendor_bytes_lem", "start-bytes": "start_bytes_lem", "algorithm-bytes": "algorithm_bytes_lem",
    "owner-fits": "owner_fits_lem", "suite-written": "suite_written_lem", "all-written": "all_written_lem",
    "mode-value": "mode_value_lem", "mode-field": "mode_field_lem", "limit-value": "limit_value_lem", "limit-field": "limit_field_lem",
    "access-bytes": "access_bytes_lem", "pair-value": "pair_value_lem", "pair-field": "pair_field_lem",
    "medium-value": "medium_value_lem", "protocol-value": "protocol_value_lem", "session-value": "session_value_lem",
    "info-bytes": "info_bytes_lem",
}
# The kit's script has respelled these, but not in pages and wrong versions.
BY_THE_KIT = """
    a-byte add-at agree-same all-known all-of allBelow allFit answer-at answer-back answerOf any-none as-bytes as-long as-many
    as-one as-written at-least at-length at-other at-own at-place at-tag atMost best-none body-back bodyAt bool-cases both-left
    both-right both-true bytes-back bytes-drop bytes-le bytes-left bytes-next bytes-take bytesOf code-of count-spec countOf
    counted-spec cut-off end-is endOf entry-length entry-spec entryAt filled-zero finish-spec first-byte first-ended fit-of fit-on
    free-spec from-one from-zero get-after go-from goes-on headOf held-first held-next held-on is-set isNone isRefused isSet
    kept-whole kindOf last-byte last-line le-bytes le-low left-behind lengthOf lent-spec lentAs linesFrom linesOf list-same listFrom
    listOf low-bits low-fits low-small lowest-by made-of modeOf new-spec no-bytes no-end no-kind no-less no-more no-room no-row
    no-start none-left none-of none-read none-written none-yet not-low number-fits number-is number-of number-small numberIn
    numbers-fit of-spec one-list one-more one-number pair-is pair-small pairOf part-bytes part-held part-in part-length part-out
    partAt partOf partly-none partsOf put-spec put-typed read-as read-back read-length read-none read-some read-spec record-is
    refused-as rest-all rest-end rest-part rest-read restOf row-at row-one rowOf run-ends run-none run-spec same-answer same-length
    same-place same-row same-start says-other set-pair settingOf shapeOf some-bytes start-back startAt startOf started-none step-end
    step-spec stepOf stepped-by store-spec stored-low sub-at sub-low tag-back tag-is taken-as too-long top-small top-within turn-end
    turn-on typeOf typed-spec unitOf upTo value-spec valueOf view-known went-on wf-of width-spec wordOf write-spec written-is
    written-one written-read zeros-by code-one is-plain parts-are
""".split()
# The library has these under the very name.
KEPT = {"ltb-false"}


def snake(name):
    if name in APART:
        return APART[name]
    if name in KEPT or "◌" in name:
        return name
    if name[0].isupper():
        return name.replace("-", "_")
    return re.sub(r"(?<=[a-z0-9])([A-Z])", lambda m: "_" + m.group(1).lower(), name).replace("-", "_")


def crates():
    return [line.split(":")[0].strip() for line in open("crates.txt") if ":" in line.split("#")[0]]


def files(pattern):
    return sorted(f for c in crates() for f in glob.glob("crates/%s/%s" % (c, pattern), recursive=True))


def declared(path):
    """The names that a file declares, fields and constructors among them."""
    for line in open(path):
        m = re.match(r"^\s*(?:(?:unfoldable|abbrev|pub|data|record)\s+)*(%s(?: %s)*) :(?:\s|$)" % (NAME, NAME), line)
        if m and m.group(1).split()[0] not in ("use", "let", "λ", "elim", "infix", "infixl", "infixr"):
            yield from m.group(1).split()


def names():
    table = {}
    for path in files("specs/**/*.antt") + files("proofs/**/*.antt"):
        walk = path.endswith("/Proof.antt")
        for name in declared(path):
            if walk and not name.endswith("-spec"):
                continue
            if snake(name) != name:
                table[name] = snake(name)
    return table


def turned(text, table):
    return TOKEN.sub(lambda m: table.get(m.group(0), m.group(0)), text)


def in_comment(text, table):
    """In prose a dash may join two words of English: there only names with a capital inside are names."""
    return turned(text, {old: new for old, new in table.items() if "-" not in old and old not in APART})


def antt(text, table):
    lines = []
    for line in text.split("\n"):
        at = re.search(r"(?:^|\s)--(?:\s|$)", line)
        at = at.start() if at else len(line)
        code = re.split(r'("[^"]*")', line[:at])
        code = "".join(part if part.startswith('"') else turned(part, table) for part in code)
        lines.append(code + in_comment(line[at:], table))
    return "\n".join(lines)


def rt(text, table):
    lines = []
    for line in text.split("\n"):
        at = line.find("//")
        at = at if at >= 0 else len(line)
        code = re.split(r'("(?:[^"\\]|\\.)*")', line[:at])
        code = "".join(part if part.startswith('"') else turned(part, table) for part in code)
        lines.append(code + in_comment(line[at:], table))
    return "\n".join(lines)


def edit(text, table):
    """Of a wrong version: what it replaces, and the law that refuses it."""
    lines = text.split("\n")
    for i, line in enumerate(lines):
        if re.match(r"(old|new|# refused at):", line):
            head, rest = line.split(":", 1)
            lines[i] = head + ":" + turned(rest, table)
    return "\n".join(lines)


def page(text, table):
    return re.sub(r"`[^`\n]*`", lambda m: turned(m.group(0), table), text)


def main():
    table = names()
    beside = dict(table, **{name: snake(name) for name in BY_THE_KIT})
    kinds = [
        (files("specs/**/*.antt") + files("proofs/**/*.antt"), antt, table),
        (files("src/**/*.rt"), rt, table),
        (files("must-fail/*.edit") + files("wrong/*.edit"), edit, beside),
        (sorted(glob.glob("docs/**/*.md", recursive=True)) + ["README.md"], page, beside),
    ]
    changed = 0
    for paths, turn, known in kinds:
        for path in paths:
            old = open(path).read()
            new = turn(old, known)
            if new != old:
                changed += 1
                open(path, "w").write(new)
    print("respell: %d names, %d files changed" % (len(table), changed))


if __name__ == "__main__":
    main()
