#!/usr/bin/env python3
"""Respells the names that this repository's own definitions and lemmas declare: words in snake case, types and modules in camel case.

usage: tools/respell.py            in the repository, once, behind the toolchain's own script
       tools/respell.py --names    only prints the names, a line each: old, a tab, new

What turns: each lower-case name that specs/ and the lemma files of proofs/ declare (definitions, fields, constructors, lemmas), in every .antt
file, and in the clauses and imports of every .rt file. A dash stays where it joins two names that specs/ or the library declares, as in `encode-append`;
elsewhere it is an underscore. A lemma that would have a declared name gets `_lem`. The proof files of a single function keep their own labels.
Names of Rust functions, constants and types, strings, inputs and outputs are not touched.
"""
import collections
import os
import re
import sys

TOKEN = re.compile(r'[^\s(){}\[\].;,@"«»\\`:|!?]+')
DECLARED = re.compile(r'\s*(?:(?:pub|abbrev|unfoldable)\s+)*([^\s(){}.;,«»]+)(?:\s*\{[^}]*\}|\s*\([^)]*\))*\s*:(?!:)\s')
# Several constructors of one type on a line.
SEVERAL = re.compile(r"\s+([\w'-]+(?: [\w'-]+)+) : [A-Z]\w*$")
CAMEL = re.compile(r"[a-z][a-z0-9]*[A-Z]\w*")
# Words of the toolchain's library that a lemma may be named after.
WORDS = "length take drop append set get_or reverse map concat min max replicate add sub mul".split()


def files(kinds):
    for folder, dirs, names in os.walk("crates"):
        dirs[:] = sorted(d for d in dirs if d not in ("out", "target"))
        for name in sorted(names):
            if name.endswith(kinds):
                yield os.path.join(folder, name)


def of_a_function(path):
    parts = path.split(os.sep)
    return parts[2] == "proofs" and len(parts) > 4


def snake(part):
    if not re.match(r"◌?[a-z]", part):
        return part
    return re.sub(r"(?<=[a-z0-9])[A-Z]", lambda m: "_" + m[0].lower(), part)


def declared():
    """Every declared name, with whether a file of specs/ declares it."""
    names = collections.OrderedDict()
    for path in files(".antt"):
        if of_a_function(path):
            continue
        for line in open(path, encoding="utf-8"):
            if line.lstrip().startswith("--"):
                continue
            m = DECLARED.match(line)
            words = [m[1]] if m else re.findall(r"[\w'-]+", SEVERAL.match(line)[1]) if SEVERAL.match(line) else []
            for word in words + [w for w in TOKEN.findall(line) if CAMEL.fullmatch(w)]:
                names[word] = names.get(word, False) or "/specs/" in path
    return names


def table():
    names = declared()
    plain = {snake(n) for n in names if "-" not in n and names[n]} | set(WORDS)
    taken = {n for n in names if "-" not in n and snake(n) == n}
    new = {}
    for name in names:
        if "-" in name or snake(name) == name or not re.match(r"◌?[a-z]", name):
            continue
        new[name] = snake(name)
        taken.add(new[name])
    for name in names:
        if "-" not in name or name.startswith("+"):
            continue
        parts = [snake(p) for p in name.split("-")]
        of_two = len(parts) == 2 and all(len(p) > 2 and p in plain for p in parts)
        out = ("-" if of_two else "_").join(parts)
        if out == name:
            continue
        while out in taken:
            out += "_lem"
        taken.add(out)
        new[name] = out
    for name in list(new):
        if name.startswith("◌"):
            new[name.strip("◌")] = new[name].strip("◌")
    return new


def turn(text, new, stays=()):
    def one(m):
        word = m[0]
        if word in stays:
            return word
        bare = word.rstrip("'₀₁₂")
        if word in new:
            return new[word]
        if bare in new:
            return new[bare] + word[len(bare):]
        return word

    return TOKEN.sub(one, text)


CLAUSE = re.compile(r"^\s*(?:requires|ensures|ghost)\b")


def main():
    new = table()
    if sys.argv[1:] == ["--names"]:
        for name in new:
            print(name + "\t" + new[name])
        return
    count = 0
    for path in files((".antt", ".rt")):
        text = open(path, encoding="utf-8").read()
        if path.endswith(".antt"):
            stays = set()
            if of_a_function(path):
                stays = {m[1] for m in re.finditer(r"(?m)^(?:abbrev )?(?:pub )?(\S+) : (?:tie|goal)\.", text)}
                stays |= set(re.findall(r"(?:tie|goal)\.(?:Need-|At-)?([^\s(){}.]+)", text))
            out = turn(text, new, stays)
        else:
            # A clause goes on to the line that closes it.
            lines, depth = [], 0
            for line in text.split("\n"):
                if depth or CLAUSE.match(line):
                    code = line.split("//")[0]
                    depth += code.count("{") - code.count("}")
                    line = turn(line, new)
                lines.append(line)
            out = "\n".join(lines)
        if out != text:
            open(path, "w", encoding="utf-8").write(out)
            count += 1
    print(f"respell: {len(new)} names, {count} files")


if __name__ == "__main__":
    main()
