#!/usr/bin/env python3
"""Brings this repository's own definitions and lemmas to the spelling of Rattle's library.

usage: python3 tools/snake_names.py      at the top of the repository, once, after the kit's own script

Words take underscores (`is-size` becomes `is_size`), types of their own camel case (`May-enter` becomes `MayEnter`).
Left as they are: names of the library that a file imports, and the names of goals, steps and loops that the checker
makes, which have hyphens. In `.rt` files only clauses and `ghost use` lines are turned, in pages what stands in backticks.
Prints each name that it turned, and before them each pair of names of one file that fall together.
"""

import os
import re
import sys

PART = "[A-Za-z0-9_'\u0370-\u03ff\u2070-\u209f\u2200-\u22ff]+"
HYPHENED = re.compile(r"(?<![\w'\-])" + PART + r"(?:-" + PART + r")+(?![\w'\-])")
USE = re.compile(r"^\s*(?:pub )?(?:ghost )?use ([A-Za-z]\w*\.[\w.+]+)(?:\.\{(.*)\})?(?: as \w+)?;?\s*$")
DEFINED = re.compile(r"^\s*(?:abbrev |record |data |pub |opaque |unfoldable )*(" + PART + r"(?:-" + PART + r")+)\s*(?:\{|:|\()")
MADE = re.compile(r"\.proofs\..*\.(Goals|Given)$|\.proofs\..*\.(Goals|Given)\.")


def files(ending):
    for folder, dirs, names in os.walk("crates"):
        dirs[:] = sorted(d for d in dirs if d != "out")
        for name in sorted(names):
            if name.endswith(ending):
                yield os.path.join(folder, name)


def read(path):
    with open(path, encoding="utf-8") as f:
        return f.read()


def is_lemma_file(path):
    return os.path.basename(os.path.dirname(path)) in ("specs", "proofs")


def is_own(module):
    top, crate = module.split(".")[:2]
    return top == "Rattle" and crate in CRATES


def imports(text):
    """The names that a file imports: from the library, and from this repository (goals and steps aside)."""
    library, own = set(), set()
    for line in text.split("\n"):
        found = USE.match(line)
        if not found or found.group(2) is None:
            continue
        names = {name.strip().split(" as ")[0].strip() for name in found.group(2).split(",")}
        if not is_own(found.group(1)):
            library |= names
        elif not MADE.search(found.group(1)):
            own |= names
    return library, own


def code_parts(path, text):
    """The parts of a file that may be turned, as (start, end): not comments, and in .rt files not strings."""
    comment = "--" if path.endswith(".antt") else "//"
    at = 0
    for line in text.split("\n"):
        end = line.find(comment)
        stop = len(line) if end < 0 else end
        begin = 0
        if path.endswith(".rt"):
            for quoted in re.finditer(r'"(?:[^"\\]|\\.)*"', line[:stop]):
                yield at + begin, at + quoted.start()
                begin = quoted.end()
        yield at + begin, at + stop
        at += len(line) + 1


def new_name(name, types):
    parts = name.split("-")
    if name in types:
        return "".join(part[:1].upper() + part[1:] for part in parts)
    return "_".join(parts)


def main():
    own, types = set(), set()
    for path in files(".antt"):
        if not is_lemma_file(path):
            continue
        text = read(path)
        library, _ = imports(text)
        for start, end in code_parts(path, text):
            line = text[start:end]
            for found in HYPHENED.finditer(line):
                if found.group(0) not in library and "Rattle." not in line:
                    own.add(found.group(0))
            found = DEFINED.match(line)
            if found and found.group(1)[0].isupper() and re.match(r"^\s*(pub )?(abbrev|record|data) ", line):
                types.add(found.group(1))
    turned = {name: new_name(name, types) for name in own}

    # names that would fall together
    clashes = []
    for path in list(files(".antt")) + list(files(".rt")):
        text = read(path)
        library, imported = imports(text)
        body = "\n".join(text[start:end] for start, end in code_parts(path, text))
        plain = set(re.findall(r"(?<![\w'\-.])[A-Za-z_][\w']*(?![\w'\-])", body))
        for name in sorted(own - library):
            if turned[name] in plain and re.search(r"(?<![\w'\-])" + re.escape(name) + r"(?![\w'\-])", body):
                clashes.append((path, name, turned[name]))
    for path, name, to in clashes:
        print(f"together: {path}: {name} and {to}")

    for path in list(files(".antt")) + list(files(".rt")):
        text = read(path)
        library, imported = imports(text)
        names = own - library
        if not is_lemma_file(path):
            local = set()
            if path.endswith(".antt"):
                for line in text.split("\n"):
                    found = DEFINED.match(line)
                    if found and "goal." not in line:
                        local.add(found.group(1))
            names = {name for name in names if name in imported or name in local} | (FIELDS & own)
        out, last = [], 0
        for start, end in code_parts(path, text):
            part = text[start:end]
            if USE.match(part) and (MADE.search(USE.match(part).group(1)) or not is_own(USE.match(part).group(1))):
                continue
            out.append(text[last:start])
            out.append(HYPHENED.sub(lambda m: turned[m.group(0)] if m.group(0) in names else m.group(0), part))
            last = end
        out.append(text[last:])
        with open(path, "w", encoding="utf-8") as f:
            f.write("".join(out))

    pages = ["README.md"] + [os.path.join("docs", name) for name in sorted(os.listdir("docs")) if name.endswith(".md")]
    for path in pages:
        text = read(path)
        text = re.sub(r"`[^`\n]*`", lambda m: HYPHENED.sub(lambda n: turned.get(n.group(0), n.group(0)), m.group(0)), text)
        with open(path, "w", encoding="utf-8") as f:
            f.write(text)
    for name in sorted(own):
        print(f"{name} {turned[name]}")


def fields():
    """The fields of the records that this repository declares."""
    found = set()
    for path in files(".antt"):
        if not is_lemma_file(path):
            continue
        inside = False
        for line in read(path).split("\n"):
            if re.match(r"^\s*(pub )?record \S", line):
                inside = True
            elif line.strip() == "":
                inside = False
            elif inside:
                field = re.match(r"^\s+(?:pub )?(" + PART + r"(?:-" + PART + r")+) :", line)
                if field:
                    found.add(field.group(1))
    return found


with open("crates.txt", encoding="utf-8") as listed:
    CRATES = {line.split(":")[0].split()[0] for line in listed if ":" in line and not line.startswith("#")}
FIELDS = fields()

if __name__ == "__main__":
    sys.exit(main())
