#!/usr/bin/env python3
"""Brings the names of our own definitions and lemmas to one spelling: words in snake case, types in camel case, a prime is an apostrophe.

usage: tools/respell.py    at the top of the repository, once, after the kit's port.py and before any edit by hand

It goes over specs/, proofs/, the clauses of src/, the must-fail edits and the pages. Names of functions, strings, inputs and outputs stay.
It ends with what would fall together, and then writes nothing.
"""
import os
import re
import sys

TOKEN = re.compile(r"[^\s(){}\[\],;.`|⌜⌝\"]+")
DECLARED = re.compile(
    r"\s*(?:abbrev |unfoldable )?(?:pub )?(?:abbrev |unfoldable )?(?:data |record )?([^\s(){}:.,;]+)(?:\s+[({].*?)?\s+:\s")
NO_NAME = ("--", "use ", "module ", "let ", "λ", "elim ", "|", "unfolding ", "∙", "(", "→")
# a type made by an abbreviation inside of a proof
LOCAL_TYPE = re.compile(r"[A-Z][A-Za-z]*-(at|i)$")
# lemmas that would have the name of something else in proofs/ or of another library; those of a definition in specs/ are found
LEMMAS = {"mapping_of", "tag_cut", "looked_up", "bit_xor", "inners_on", "items_on"}
# names of a single file that another one's new name would hide
LOCAL = {
    "crates/pack_layout/proofs/Stops.antt": {"none_inside": "none_inside_lem"},
    "crates/pmd_read/proofs/Kept.antt": {"goes_on": "goes"},
    "crates/pmd_write/proofs/Inked.antt": {"goes_on": "goes"},
    "crates/pmd_write/proofs/Laid.antt": {"goes_on": "goes"},
}
# the fields of PMD records, which were spelled as types
FIELDS = "crates/pmd/specs/Fields.antt"


def snake_word(name):
    name = re.sub(r"([a-z0-9])([A-Z])", r"\1_\2", name)
    return re.sub(r"([A-Z])([A-Z][a-z])", r"\1_\2", name).lower()


def snake(name):
    if LOCAL_TYPE.match(name):
        head, tail = name.split("-")
        return head + tail.capitalize()
    if name[0].isupper():
        return name
    return snake_word(name.replace("getD", "get_or").replace("′", "'").replace("-", "_"))


def files(ending):
    for folder, dirs, names in os.walk("crates"):
        dirs[:] = sorted(d for d in dirs if d != "out")
        for name in sorted(names):
            if name.endswith(ending) and name != "Lib.antt":
                yield os.path.join(folder, name)


def declared(text):
    """The names that a file of specs/ or proofs/ declares: definitions, lemmas, fields and constructors."""
    found = []
    for line in text.split("\n"):
        if line.strip().startswith(NO_NAME):
            continue
        m = DECLARED.match(line)
        if m:
            found.append(m.group(1))
    return found + re.findall(r"^use [^\s{]+ as ([^\s]+)$", text, re.M)


def imports(text, own):
    """What a file brings in, as pairs of a module and a name; a name of another library stands with None."""
    for path, names in re.findall(r"^(?:ghost )?use ([^\s{;]+)\.\{([^}]*)\}", text, re.M):
        parts = path.split(".")
        ours = parts[0] == "Rattle" and parts[1] in own
        for name in names.replace("\n", " ").split(","):
            name = name.strip().split(" as ")[-1].strip()
            if name:
                yield (path if ours else None), name


def clause_lines(text):
    """Whether each line of a source file is of antt: a ghost line, or within a clause."""
    inside = depth = 0
    for line in text.split("\n"):
        bare = line.strip()
        starts = bare.startswith(("requires", "ensures", "ghost"))
        marks = inside or starts
        if marks:
            depth += line.count("{") - line.count("}")
            inside = depth > 0
            if not inside:
                depth = 0
        yield bool(marks)


def turned_antt(text, table, skip):
    """The text of an .antt file; in a comment a word with a dash may be English and stays, but between backquotes."""
    said = {n: new for n, new in table.items() if "-" not in n}
    lines = []
    for line in text.split("\n"):
        code, mark, comment = line.partition("--") if line.lstrip().startswith("--") else (line, "", "")
        comment = re.sub(r"`[^`]+`", lambda m: turned(m.group(0), table, skip), turned(comment, said, skip))
        lines.append(turned(code, table, skip) + mark + comment)
    return "\n".join(lines)


def turned(text, table, skip):
    return TOKEN.sub(lambda m: table.get(m.group(0), m.group(0)) if m.group(0) not in skip else m.group(0), text)


def fields(path, text):
    """The constructors of the PMD fields in snake case."""
    if path == FIELDS:
        return re.sub(r"^  ([A-Z]\w*)( : Field)", lambda m: "  " + snake_word(m.group(1)) + m.group(2), text, flags=re.M)
    if "use Rattle.pmd.specs.Fields as F" in text or path.startswith("crates/pmd/must-fail/"):
        return re.sub(r"\bF\.([A-Z]\w*)", lambda m: "F." + snake_word(m.group(1)), text)
    return text


def written(path, old, new):
    if new != old:
        with open(path, "w", encoding="utf-8") as f:
            f.write(new)
    return new != old


def edit_line(line, there):
    """A line of an edit in the kit's spelling: what port.py turned in the file, and not in the edits."""
    line = TOKEN.sub(lambda m: snake(m.group(0)) if snake(m.group(0)) in there and m.group(0) not in there else m.group(0), line)
    line = re.sub(r"(?<=[\w)]) \.(?=[\w«])", ".", line).replace("Rattle·", "Rattle.")
    line = re.sub(r"(?<=[\s(])\((\w+)\.«?(\w+)»?\)", r"\1.\2", line)
    return re.sub(r"(?<![\w])_([^\s\w,}]+)_(?![\w])", "◌\\1◌", line)


def edits_turned(table, foreign):
    """The edits: an edit of code has none of these names but in a clause, and there they are the same words."""
    count = 0
    for p in files(".edit"):
        with open(p, encoding="utf-8") as f:
            t = f.read()
        target = re.search(r"^file: (\S+)", t, re.M).group(1)
        if target.endswith(".antt") or re.search(r"^(old|new):.*(ensures|requires|ghost)", t, re.M):
            skip = foreign.get(os.path.join(os.path.dirname(os.path.dirname(p)), target), set())
            with open(os.path.join(os.path.dirname(os.path.dirname(p)), target), encoding="utf-8") as f:
                there = set(TOKEN.findall(f.read()))
            new = "\n".join(edit_line(turned(l, table, skip), there) if l.startswith(("old:", "new:")) else l for l in t.split("\n"))
            count += written(p, t, fields(p, new))
    return count


def pages_turned(table, known):
    """The pages: a name between backquotes, also one that port.py turned."""

    def word(m):
        name = table.get(m.group(0), m.group(0))
        return snake(name) if "-" in name and snake(name) in known else name

    count = 0
    for folder, dirs, names in os.walk("."):
        dirs[:] = [d for d in dirs if d not in ("crates", ".git", "target")]
        for name in names:
            p = os.path.join(folder, name)
            if name.endswith(".md"):
                with open(p, encoding="utf-8") as f:
                    t = f.read()
                count += written(p, t, re.sub(r"`[^`\n]+`", lambda m: TOKEN.sub(word, m.group(0)), t))
    return count


def local(path):
    with open(path, encoding="utf-8") as f:
        return turned(f.read(), LOCAL.get(path, {}), set())


def table_of(names):
    """Each old name with its new one. A lemma that would have its definition's name gets `_lem`."""
    table = {}
    defined = {snake(n) for p, found in names.items() if "/specs/" in p for n in found}
    for p, found in names.items():
        for name in found:
            new = snake(name)
            if "-" in name and name[0].islower() and (new in defined or new in LEMMAS) and "/proofs/" in p:
                new += "_lem"
            if new != name:
                table[name] = new
    return table


def together(antt, names, table, foreign, own):
    """The names that would be one in a file where they are two."""
    wrong = []
    for p, t in antt.items():
        skip = foreign[p]
        seen = {}
        for where, n in [(w, n) for w, n in imports(t, own) if w] + [(p, n) for n in dict.fromkeys(names[p])]:
            seen.setdefault(n if n in skip else table.get(n, n), set()).add((where, n))
        for new, of in seen.items():
            if len({n for _, n in of}) > 1:
                wrong.append(f"{p}: {new}: {sorted(of)}")
        if p.endswith("/Proof.antt"):
            continue
        here = set(TOKEN.findall(re.sub(r"--.*|\.[\w'-]+", "", t)))
        for n in here:
            if n in table and n not in skip and (table[n] in here or table[n] in skip):
                wrong.append(f"{p}: {n} would be {table[n]}, which stands there")
    return wrong


def main():
    own = set(os.listdir("crates"))
    antt = {p: local(p) for p in files(".antt")}
    code = {p: local(p) for p in files(".rt")}
    names = {p: declared(t) for p, t in antt.items()}
    table = table_of(names)
    foreign = {p: {n for where, n in imports(t, own) if where is None} for p, t in {**antt, **code}.items()}
    wrong = together(antt, names, table, foreign, own)
    for line in wrong:
        print(line)
    if wrong and "--anyway" not in sys.argv:
        print(f"respell: {len(wrong)} names fall together; nothing was written", file=sys.stderr)
        return 1
    count = 0
    for p, t in antt.items():
        count += written(p, "", fields(p, turned_antt(t, table, foreign[p])))
    for p, t in code.items():
        lines = [turned(l, table, foreign[p]) if m else l for l, m in zip(t.split("\n"), clause_lines(t))]
        count += written(p, "", fields(p, "\n".join(lines)))
    edits, pages = edits_turned(table, foreign), pages_turned(table, {table.get(n, n) for found in names.values() for n in found})
    print(f"respell: {len(table)} names in {count} files, {edits} edits, {pages} pages")
    return 0


if __name__ == "__main__":
    sys.exit(main())
