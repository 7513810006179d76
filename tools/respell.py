#!/usr/bin/env python3
"""respell.py ROOT [--collisions]: brings the names of this repository's own definitions and lemmas to the spelling of today's Rattle: a word is in snake case
(`offSegment` becomes `off_segment`), types, facts and modules stay in camel case. It goes over the .antt files, the clauses and `ghost use` lines of the
.rt files, and the .edit files. Functions of src/ and strings keep theirs. A lemma that would have the name of the word it speaks of gets `_lem`. The crate `log` becomes
`ride_log`, since the kit has a library of that name. Run once, after port.py, in the repository ROOT.
--collisions only lists names that would fall together with others of the same file."""
import pathlib
import re
import subprocess
import sys

WORD = re.compile(r"«[^»]*»|(?<![A-Za-z0-9_])[A-Za-z_][A-Za-z0-9_']*")
# lemmas that would have the name of a word in scope, by the files that cite them
LEMMAS = {
    "crates/journal/proofs/Calls.antt": ("way_home", "update_here"),
    "crates/journal/proofs/Updating.antt": ("matched_to",),
    "crates/matching/proofs/followed/Lines.antt": ("line_on",),
    "crates/taken/proofs/Asking.antt": ("held_fits", "numbers_fit"),
    "crates/taken/proofs/Taken.antt": ("held_fits",),
    "crates/taken/proofs/Following.antt": ("joined_to",),
    "crates/taken/proofs/Moving.antt": ("step_from",),
    "crates/taken/proofs/asked/Measured.antt": ("matched_to", "update_here", "way_home"),
    "crates/taken/proofs/asked/State.antt": ("step_from",),
    "crates/update/proofs/Deciding.antt": ("on_line",),
}
CAMEL = re.compile(r"[a-z][a-z0-9]*(?:[A-Z][a-z0-9]*)+'*")


def snake(word):
    return re.sub(r"(?<=[a-z0-9])([A-Z])", lambda m: "_" + m[1].lower(), word)


def turned(word):
    """The new spelling of a word, or the word. A joined name is turned part by part, since a dash is no letter of WORD."""
    quoted = word.startswith("«")
    bare = word[1:-1] if quoted else word
    if not CAMEL.fullmatch(bare):
        return word
    return f"«{snake(bare)}»" if quoted else snake(bare)


def files(root):
    for folder in ("crates", "mutations"):
        for path in sorted((root / folder).rglob("*")):
            if path.suffix in (".antt", ".rt", ".edit") and "out" not in path.parts:
                yield path


def words(text):
    return set(WORD.findall(text))


def list_collisions(root):
    for path in files(root):
        code = re.sub(r"(--|//)[^\n]*", "", path.read_text())
        there = words(code)
        for word in sorted(there):
            if turned(word) != word and turned(word) in there:
                print(f"{path.relative_to(root)}: {word} and {turned(word)}")


def name_lemmas(root):
    for file, lemmas in LEMMAS.items():
        path = root / file
        text = path.read_text()
        for lemma in lemmas:
            text = re.sub(rf"(?<![\w.'-]){lemma}(?![\w'-])", f"{lemma}_lem", text)
        path.write_text(text)


def rename_log(root):
    for folder in ("crates", "mutations"):
        if (root / folder / "log").is_dir():
            subprocess.run(["git", "mv", f"{folder}/log", f"{folder}/ride_log"], cwd=root, check=True)
    for path in files(root):
        text = path.read_text()
        new = text.replace("Rattle.log.", "Rattle.ride_log.").replace("Rattle·log.", "Rattle·ride_log.")
        if path.suffix != ".antt":
            new = re.sub(r"(?<![\w.:])log::", "ride_log::", new)
        if new != text:
            path.write_text(new)
    listed = root / "crates.txt"
    listed.write_text(re.sub(r"(?m)^(?!#)(.*)$", lambda m: re.sub(r"(?<!\w)log(?!\w)", "ride_log", m[1]), listed.read_text()))


def main(argv):
    root = pathlib.Path(argv[0]).resolve()
    if argv[1:] == ["--collisions"]:
        return list_collisions(root)
    name_lemmas(root)
    for path in files(root):
        text = path.read_text()
        new = WORD.sub(lambda m: turned(m[0]), text)
        if new != text:
            path.write_text(new)
    rename_log(root)


if __name__ == "__main__":
    main(sys.argv[1:])
