#!/usr/bin/env python3
"""Respells this repository's own definitions, fields and lemmas in snake case, once, after port.py.

usage: python3 tools/respell.py    at the top of the repository, on the tree as port.py left it

A name is respelled where a file of specs/ or proofs/ declares it: lowerCamel (`digitsForm`) and words joined by dashes
(`in-form`) become `digits_form` and `in_form`. Left alone: types and modules, names that Rattle makes (what a proof
declares as `tie.Need-..`), names imported from the kit, text in quotes, functions of src/ and prose in comments. At the
end `rt fmt` lays every crate out.
Where two names would fall together, the one with dashes keeps them (a dash may join two names), and of two others the
lemma that port.py had respelled gets its dashes back.
"""
import os
import re
import subprocess

WORD = re.compile(r"[^\s(){}\[\],;.«»`\"]+")
CAMEL = re.compile(r"[a-z][a-z0-9]*(?:[A-Z][A-Za-z0-9]*)+'*$")
DASHED = re.compile(r"[a-z][A-Za-z0-9]*(?:-[A-Za-z0-9]+)+'*$")
SIGNATURE = re.compile(r"^\s*(?:abbrev |unfoldable )?(?:pub )?([^\s(){}:]+(?: [^\s(){}:]+)*) :(?: (.*))?$")
OWN = re.compile(r"^(?:pub )?use Rattle\.(\w+)\.(?:specs|proofs)\.")
USED = re.compile(r"^\s*(?:pub |ghost )*use ([\w.·◌]+)\.\{([^}]*)\}")


# A function of src/ keeps its name, though a definition gets the same.
FUNCTIONS = {"all_digits"}


def files(root, endings):
    for folder, dirs, names in os.walk(os.path.join(root, "crates")):
        dirs[:] = sorted(d for d in dirs if d != "out")
        for name in sorted(names):
            if name.endswith(endings):
                yield os.path.join(folder, name)


def read(path):
    with open(path, encoding="utf-8") as f:
        return f.read()


def snake(name):
    name = re.sub(r"(?<=[a-z0-9])(?=[A-Z])", "_", name)
    return name.replace("-", "_").lower()


def declared(root):
    """Names that the repository's .antt files declare, with those that Rattle makes apart."""
    own, made = set(), set()
    for path in files(root, (".antt",)):
        for line in read(path).split("\n"):
            m = SIGNATURE.match(line)
            if m:
                (made if re.match(r"(tie|goal)\.", m[2] or "") else own).update(m[1].split())
    return own, made


def imported(root, crates):
    """Names that some file imports from outside the repository."""
    out = set()
    for path in files(root, (".antt", ".rt")):
        for line in read(path).split("\n"):
            m = USED.match(line)
            if m and not (m[1].startswith("Rattle.") and m[1].split(".")[1] in crates):
                out |= {w.strip().split(" as ")[0] for w in m[2].split(",")}
    return out


def plan(root):
    crates = set(os.listdir(os.path.join(root, "crates")))
    own, made = declared(root)
    outside = imported(root, crates)
    names = {}
    for name in sorted(own - made - outside):
        if CAMEL.match(name) or DASHED.match(name):
            names[name] = snake(name)
    taken = {}
    for name in sorted(own | outside | set(names)):
        taken.setdefault(names.get(name, name), []).append(name)
    for new, olds in sorted(taken.items()):
        dashed = [old for old in olds if "-" in old]
        for old in dashed if len(olds) > 1 else []:
            del names[old]
        if len(olds) > 1 and new in olds and not dashed and new not in FUNCTIONS:
            names[new] = new.replace("_", "-")
    return names


def turn_code(text, names, dashes):
    def one(m):
        word = m[0]
        new = names.get(word)
        return new if new and (dashes or CAMEL.match(word)) else word

    return WORD.sub(one, text)


def turn_line(line, names, dashes, comment):
    """A line's code, its backquoted words in a comment, and nothing in quotes; dashes in .antt alone."""
    at = len(line)
    quoted = False
    for i, letter in enumerate(line):
        if letter == '"':
            quoted = not quoted
        elif not quoted and line.startswith(comment, i) and (i == 0 or line[i - 1] == " "):
            at = i
            break
    code, said = line[:at], line[at:]
    parts = code.split('"')
    parts[::2] = [turn_code(p, names, dashes) for p in parts[::2]]
    said = re.sub(r"`[^`]*`", lambda m: turn_code(m[0], names, True), said)
    return '"'.join(parts) + said


def main():
    root = os.getcwd()
    names = plan(root)
    for path in files(root, (".antt", ".rt", ".edit")):
        text = read(path)
        lines = []
        in_antt = path.endswith(".antt")
        for line in text.split("\n"):
            if path.endswith(".edit"):
                if line.startswith("file:"):
                    in_antt = line.strip().endswith(".antt")
                lines.append(turn_line(line, names, in_antt, "#"))
            else:
                lines.append(turn_line(line, names, in_antt, "--" if in_antt else "//"))
        turned = "\n".join(lines)
        if turned != text:
            with open(path, "w", encoding="utf-8") as f:
                f.write(turned)
    for crate in sorted(os.listdir(os.path.join(root, "crates"))):
        subprocess.run(["rt", "fmt"], cwd=os.path.join(root, "crates", crate), check=True, stdout=subprocess.DEVNULL)
    print(f"{len(names)} names")


if __name__ == "__main__":
    main()
