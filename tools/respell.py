#!/usr/bin/env python3
"""Brings the names of definitions and lemmas to snake case: `lowerGroups` becomes `lower_groups`, `withAReference` becomes `with_a_reference`.

Run it once, at the top of a checkout that port.py has turned. It goes over the definitions, the proofs, the clauses of the sources and the
must-fail edits of every crate. A name is taken if an .antt file of the repository has it as a word, it begins with a small letter and has a large one
that does not stand behind an underscore. Types, modules, constructors of Rust's enums, strings and the functions of src/ keep their names.

Then the names that specs/ declares lose their dashes: `rows-kept` becomes `rows_kept`. The lemmas of proofs/ keep theirs, which join the parts of what a
lemma says, as in `length-insert`.

It ends with an error, and changes nothing, if a new name stands already in some file or two names fall together."""
import glob
import os
import re
import sys

NAME = re.compile(r"(?<![A-Za-z0-9_'])[a-z][a-z0-9_']*[A-Z][A-Za-z0-9_']*")
WORD = re.compile(r"[A-Za-z_][A-Za-z0-9_']*")
PATH = re.compile(r"Rattle(?:\.[A-Za-z0-9_]+)+|(?<=[A-Za-z0-9_')])\.[a-z][A-Za-z0-9_'-]*")
COMMENT = re.compile(r"^\s*--.*$|\s-- .*$", re.M)
STRING = re.compile(r'b?"(?:[^"\\]|\\.)*"')
# names that the library or the generated records have
KEPT = {"getD"}
# names whose plain respelling stands already, as a local name or as a name of the library, and what they become
OTHER = {
    "beforeAt": "row_before",
    "betweenEnds": "is_between_ends",
    "goesOn": "next_sought",
    "goingBefore": "going_word_before",
    "goingOn": "going_on_config",
    "isOpen": "is_open_at",
    "limitsOf": "family_limits",
    "numberMore": "number_word_more",
    "oneEnd": "sought_one_end",
    "startState": "in_start_state",
    "twoEnds": "sought_two_ends",
    "withAReference": "with_a_reference",
}


# what specs/ declares with dashes, and the names that stand already without them
DECLARED = re.compile(
    r"^\s*(?:(?:pub|abbrev|unfoldable)\s+)+(?:record\s+|data\s+)?([a-z][A-Za-z0-9_']*(?:-[A-Za-z0-9_']+)+)\s*[:({]|^  ([a-z][A-Za-z0-9_']*(?:-[A-Za-z0-9_']+)+) :",
    re.M,
)
DASHED = re.compile(r"(?<![A-Za-z0-9_'-])[A-Za-z_][A-Za-z0-9_']*(?:-[A-Za-z0-9_']+)+(?![A-Za-z0-9_'-])")
TICKED = re.compile(r"`[^`]*`")
WITHOUT_DASHES = {
    "all-good": "all_are_good",
    "one-checker": "for_one_checker",
    "open-stamp": "at_open_stamp",
    "open-word": "at_open_word",
    "text-is": "text_equals",
    "vector-is": "vector_equals",
}


def respelled(name):
    if name in OTHER:
        return OTHER[name]
    return re.sub(r"(?<!^)(?<!_)([A-Z]+)", lambda m: "_" + m.group(1), name).lower()


def names_of(files):
    found = set()
    for f in files:
        for name in NAME.findall(open(f).read()):
            if name not in KEPT and not re.search(r"_[A-Z]", name):
                found.add(name)
    return found


def turn(text, table, keep_strings):
    def word(m):
        return table.get(m.group(0), m.group(0))

    if not keep_strings:
        return WORD.sub(word, text)
    out, at = [], 0
    for s in STRING.finditer(text):
        out.append(WORD.sub(word, text[at : s.start()]))
        out.append(s.group(0))
        at = s.end()
    out.append(WORD.sub(word, text[at:]))
    return "".join(out)


def declared(files):
    found = set()
    for f in files:
        for m in DECLARED.finditer(open(f).read()):
            found.add(m.group(1) or m.group(2))
    return {name: WITHOUT_DASHES.get(name, name.replace("-", "_")) for name in found}


def turn_dashes(text, table, mark):
    def word(m):
        return table.get(m.group(0), m.group(0))

    def code_of(code):
        # what a program writes stays
        if mark != "//":
            return DASHED.sub(word, code)
        parts, at = [], 0
        for s in STRING.finditer(code):
            parts += [DASHED.sub(word, code[at : s.start()]), s.group(0)]
            at = s.end()
        return "".join(parts) + DASHED.sub(word, code[at:])

    out = []
    for line in text.split("\n"):
        at = line.find(mark) if mark else -1
        code, comment = (line, "") if at < 0 else (line[:at], line[at:])
        comment = TICKED.sub(lambda m: DASHED.sub(word, m.group(0)), comment)
        out.append(code_of(code) + comment)
    return "\n".join(out)


def standing_words(files, text_of):
    """Each word of what text_of leaves of a file, without comments, paths and fields, which are no names of definitions, and a file that has it."""
    standing = {}
    for f in files:
        for word in set(WORD.findall(PATH.sub("", COMMENT.sub("", text_of(open(f).read()))))):
            standing.setdefault(word, f)
    return standing


def stop_where_names_meet(table, standing):
    bad = [f"{a} -> {b}: stands in {standing[b]}" for a, b in table.items() if b in standing]
    seen = {}
    for a, b in table.items():
        if b in seen:
            bad.append(f"{a} and {seen[b]} -> {b}")
        seen[b] = a
    if bad:
        print("\n".join(sorted(bad)))
        sys.exit(1)


def rewrite(files, turned):
    count = 0
    for f in files:
        text = open(f).read()
        new = turned(f, text)
        if new != text:
            open(f, "w").write(new)
            count += 1
    return count


def drop_dashes(antt, files):
    table = declared(f for f in antt if "/specs/" in f)
    stop_where_names_meet(table, standing_words(antt, lambda text: DASHED.sub("", text)))
    marks = {".antt": "--", ".rt": "//"}
    count = rewrite(files, lambda f, text: turn_dashes(text, table, marks.get(os.path.splitext(f)[1], "")))
    print(f"{len(table)} names without dashes, {count} files")


def main():
    antt = sorted(glob.glob("crates/*/specs/**/*.antt", recursive=True) + glob.glob("crates/*/proofs/**/*.antt", recursive=True))
    rt = sorted(glob.glob("crates/*/src/**/*.rt", recursive=True))
    files = antt + rt + sorted(glob.glob("crates/*/must-fail/*.edit"))
    table = {name: respelled(name) for name in names_of(antt)}
    stop_where_names_meet(table, standing_words(antt, lambda text: text))
    count = rewrite(files, lambda f, text: turn(text, table, keep_strings=f.endswith(".rt")))
    print(f"{len(table)} names, {count} files")
    drop_dashes(antt, files)


main()
