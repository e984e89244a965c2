#!/usr/bin/env python3
"""Spells the repository's own definitions and lemmas in snake case, once, after port.py.

usage: python3 tools/respell.py [FOLDER]      the top of a repository that port.py has turned; the default is the current folder

A name of specs/ or proofs/ such as `bytesPut` or `never-refused` becomes `bytes_put` and `never_refused`; types and modules keep
their names. Where a lemma would then be called as a definition is (`byteOut` and `byte-out`), the definition has the name, and the
lemma ends in `_holds`; in which files a name is meant so is told by what they declare and import. A name that Rattle makes, one behind
`c.`, `w.` and the like, is not touched; nor are names with a last part -is, which Rattle makes too. The table of what was turned is
written to tools/respelled.tsv.
"""
import collections
import glob
import os
import re
import sys

ROOT = sys.argv[1] if len(sys.argv) > 1 else "."
TOKEN = re.compile(r'[^\s(){}.;,@"«»:]+|.', re.S)
DECLARED = re.compile(
    r'^( *)((?:pub|abbrev|unfoldable|opaque|irreducible|record|data|law|instance|let|where) +)*([^\s(){}.;,@"«»:]+)(?: [({][^\n]*?[)}])* :(?: |$)'
)
PROOF_MADE = re.compile(r"^(invariant|decreases)-")


def antt_files():
    return sorted(
        glob.glob(f"{ROOT}/crates/*/specs/**/*.antt", recursive=True)
        + glob.glob(f"{ROOT}/crates/*/proofs/**/*.antt", recursive=True)
    )


def snake(name):
    if name[0].islower():
        name = re.sub(r"(?<=[a-z0-9])[A-Z]", lambda m: "_" + m[0].lower(), name)
    return name.replace("-", "_")


def is_old(name):
    if re.search(r"-is$", name) or PROOF_MADE.match(name) or not re.match(r"[A-Za-z]", name):
        return False
    return bool(re.search(r"-", name) or re.match(r"[a-z]\w*[a-z0-9][A-Z]", name))


declared = collections.defaultdict(set)  # file: names that it declares
fields = set()
for path in antt_files():
    with open(path, encoding="utf-8") as f:
        for line in f:
            found = DECLARED.match(line)
            if found:
                declared[path].add(found[3])
                if found[1]:
                    fields.add(found[3])

everything = set().union(*declared.values())
table = {name: snake(name) for name in everything if is_old(name)}
# Two names that fall together: the definition, in camel case or turned already, has the new one.
by_new = collections.defaultdict(set)
for name in everything:
    by_new[table.get(name, name)].add(name)
local = {}  # a name turned already that gives way, in the files that declare it or import it from one that does
for new, names in by_new.items():
    if len(names) < 2:
        continue
    camel = [n for n in names if "-" not in n and n != new]
    for name in names:
        if "-" in name:
            table[name] = new + "_holds"
        elif name == new and camel:
            local[name] = new + "_holds"


def module_of(path):
    parts = os.path.relpath(path, f"{ROOT}/crates")[: -len(".antt")].split(os.sep)
    return "Rattle." + ".".join(parts)


declaring = {name: {module_of(p) for p, names in declared.items() if name in names} for name in local}
USE = re.compile(r"^(?:pub )?use (Rattle\.[^\s{]+?)\.?(?:\{([^}]*)\})?$", re.M)


def locals_of(text, path):
    here = {}
    for name, modules in declaring.items():
        if path and module_of(path) in modules:
            here[name] = local[name]
    for head, items in USE.findall(text):
        names = re.split(r",\s*", items) if items else []
        for name in names:
            if name in declaring and head.rstrip(".") in declaring[name]:
                here[name] = local[name]
    return here


# A field of a record, behind a dot; what stands behind another head is Rattle's.
MADE = re.compile(r"^(?:[a-z]'*|κs|tie|goal|given|g\d|c\d|w\d|l\d)$")


def turn(text, here):
    said = {**table, **here}
    out, tokens = [], TOKEN.findall(text)
    for i, token in enumerate(tokens):
        if token in said:
            before = tokens[i - 1] if i else " "
            if before == ".":
                j = i - 1
                while j >= 1 and tokens[j] == "." and re.match(r'[^\s(){}.;,@"«»:]', tokens[j - 1]):
                    j -= 2
                head = tokens[j + 1]
                if tokens[j] == "." and j >= 0:
                    head = ")"
                own = head == "Rattle" or token in fields
                made = MADE.match(head) and (token not in fields or i - (j + 1) == 2 and token in here)
                if not own or made or (head == "tie" or head == "goal"):
                    out.append(token)
                    continue
            out.append(said[token])
        else:
            out.append(token)
    return "".join(out)


COMMENT = re.compile(r"(^|\s)--.*$")


def turn_antt(text, path):
    here = locals_of(text, path)
    lines = []
    for line in text.split("\n"):
        cut = COMMENT.search(line)
        if cut:
            lines.append(turn(line[: cut.start()], here) + turn_prose(line[cut.start() :]))
        else:
            lines.append(turn(line, here))
    return "\n".join(lines)


def turn_prose(text):
    """In a comment and in a document a name turns in a code span, or where it is in camel case."""
    spans = re.split(r"(`[^`\n]*`)", text)
    for k, span in enumerate(spans):
        if span.startswith("`"):
            spans[k] = turn(span, {})
        else:
            spans[k] = re.sub(r"(?<![\w./-])[a-z]\w*[a-z0-9][A-Z]\w*(?![\w/-])", lambda m: table.get(m[0], m[0]), span)
    return "".join(spans)


def turn_rt(text):
    out = []
    here = locals_of(re.sub(r"ghost use ([^;]*);", lambda m: "\n" + "use " + m[1] + "\n", text), None)
    for line in text.split("\n"):
        code, slashes, comment = line.partition("//")
        clause = re.match(r"\s*(ghost|requires|ensures|[×→λ(]|.*[≡≤→×∷])", code) or "#[" in code and "(" in code
        if clause:
            code = turn(code, here)
        else:
            code = re.sub(r"(?<![\w.])[a-z]\w*[a-z0-9][A-Z]\w*", lambda m: table.get(m[0], m[0]), code)
        out.append(code + slashes + turn_prose(comment))
    return "\n".join(out)


def rewrite(path, how):
    with open(path, encoding="utf-8") as f:
        old = f.read()
    new = how(old)
    if new != old:
        with open(path, "w", encoding="utf-8") as f:
            f.write(new)


for path in antt_files():
    rewrite(path, lambda text: turn_antt(text, path))
for path in sorted(glob.glob(f"{ROOT}/crates/*/src/**/*.rt", recursive=True)):
    rewrite(path, turn_rt)
for path in sorted(glob.glob(f"{ROOT}/*.md") + glob.glob(f"{ROOT}/docs/**/*.md", recursive=True)):
    rewrite(path, turn_prose)
with open(f"{ROOT}/tools/respelled.tsv", "w", encoding="utf-8") as f:
    for old, new in sorted(table.items()):
        f.write(f"{old}\t{new}\n")
    for old, new in sorted(local.items()):
        f.write(f"{old}\t{new}\tin {', '.join(sorted(declaring[old]))} and where it is brought in from there\n")
