#!/usr/bin/env python3
"""Brings the repository's own definitions and lemmas to snake case: tools/respell.py FOLDER, once, on the commit behind port.py.

A name in camel case (`mostProcesses`) or with dashes (`has-union`) that a file of specs/ or proofs/ declares gets underscores, wherever it stands in
.antt files, contracts and must-fail edits. Where a lemma and the definition that it speaks of would fall together, the lemma ends in `_lem`. Names of
src/, types, modules, strings and the files of must-fail/ keep their names; names that Rattle gives the goals of a function are not ours and stay. Names
are found as words, wherever they stand; so this is made for the repository as it was then, and for no other. Must-fail edits of definitions also get
what port.py does to contracts: paths, tight projections, the library's words, and, word by word, the few places of them that need more than that."""
import collections
import glob
import os
import re
import sys

TOP = sys.argv[1] if len(sys.argv) > 1 else "."
os.chdir(TOP)
DECLARED = re.compile(r"^(\s*)((?:unfoldable |abbrev |pub )*)([^\s:(){}.,;]+)\s*:(?!=)\s")
RECORD = re.compile(r"^\s*(?:pub )?(?:data|record)\s+([^\s:(){}.,;]+)")
LETTER = r"A-Za-z0-9_\-'₀-₉ℓℕ≡≢≤<"
# a lemma that port.py had brought to snake case, and that the definition of its example would now fall together with
SNAKED = {"no_byte": "AllExamples", "two_bytes": "AllExamples", "step_cut": "AllExamples", "more_room": "AllExamples", "big_endian": "AllExamples", "no_room": "lines/proofs/AllExamples"}
# chosen by hand: this one is no lemma on `atEnd`
CHOSEN = {"at-end": "at_the_end"}


def snake(name):
    name = name.replace("-", "_")
    if name[0].islower() and re.search(r"[A-Z]", name):
        name = re.sub(r"(?<=[a-z0-9])([A-Z])", r"_\1", name).lower()
    return name


def declared(files):
    found = collections.defaultdict(set)
    for path in files:
        for line in open(path, encoding="utf-8"):
            m = DECLARED.match(line)
            if m and not line.strip().startswith("--"):
                found[m.group(3)].add(path)
            m = RECORD.match(line)
            if m:
                found[m.group(1)].add(path)
    return found


own = declared(sorted(glob.glob("crates/*/specs/*.antt") + glob.glob("crates/*/proofs/*.antt")))
names = {n: CHOSEN.get(n, snake(n)) for n in own if snake(n) != n}
taken = {new for old, new in names.items() if "-" not in old}
for old in names:
    if "-" in old and old not in CHOSEN and names[old] in taken:
        names[old] += "_lem"
together = collections.Counter(names.values())
for new, n in together.items():
    if n > 1 or (new in own and new not in SNAKED):
        print("falls together:", new)
TOKEN = re.compile("(?<![%s])(%s)(?![%s])" % (LETTER, "|".join(re.escape(n) for n in sorted(names, key=len, reverse=True)), LETTER))


def renamed(text):
    return TOKEN.sub(lambda m: names[m.group(1)], text)


def snaked(path, text):
    for name, where in SNAKED.items():
        if where in path:
            text = re.sub("(?<![%s])%s(?![%s])" % (LETTER, name, LETTER), name + "_lem", text)
    return text


def old_words(text):
    """What port.py does to a line of code, for the lines of an edit."""
    text = re.sub(r"Rattle·(\w+)·specs\.specs", r"Rattle.\1.specs", text)
    text = text.replace("Rattle·", "Rattle.").replace("the-variants", "TheVariants")
    # `(c .site p .round)` is `(c.site p).round`, and `(x .stand)` is `x.stand`
    text = re.sub(r"\((\w+) \.(\w+) (\w+) \.(\w+)\)", r"(\1.\2 \3).\4", text)
    text = re.sub(r"\((\w+) \.(\w+) (\w+) \.(\w+) \.(\w+)\)", r"(\1.\2 \3).\4.\5", text)
    text = re.sub(r"\((\w+(?: \.\w+)+)\)", lambda m: m.group(1).replace(" .", "."), text)
    text = re.sub(r"(\u03bb q\. )c \.site q \.reach", r"\1(c.site q).reach", text)
    text = re.sub(r"(?<=[\w)]) \.(?=[a-z])", ".", text)
    text = text.replace("\u2032", "'").replace("_%_", "\u25cc%\u25cc")
    text = re.sub(r"standingOf m k\.(\w+)", r"(standingOf m k).\1", text)
    # `outcome w .ending` is `(outcome w).ending`
    text = re.sub(r"\(outcome (\w+)((?: ?\.\w+)+)\)", lambda m: "(outcome %s)%s" % (m.group(1), m.group(2).replace(" ", "")), text)
    text = re.sub(r"outcome w\.(\w+)", r"(outcome w).\1", text)
    text = text.replace("use Prim.Native.Nat.{\u2115, \u25cc%\u25cc, min}", "use Rattle.std.specs.Prelude.{\u2115, \u25cc%\u25cc, min, Bool,")
    text = text.replace("use Prim.Native.Nat.{\u2115, \u25cc%\u25cc, max}", "use Rattle.std.specs.Prelude.{\u2115, \u25cc%\u25cc, max, Bool,")
    text = re.sub(r"\bgetD\b", "get_or", text)
    for a, b in [("bitAnd", "bit_and"), ("bitOr", "bit_or"), ("bitXor", "bit_xor"), ("numberOf", "number_of"), ("countOf", "count_of"), ("wordOf", "word_of"),
                 ("tagOf", "tag_of"), ("sizeOf", "size_of"), ("valueAt", "value_at"), ("noRun", "no_run"), ("valuesOf", "values_of"), ("rowOf", "row_of"), ("carriedOf", "carried_of"), ("orElse", "or_else"), ("trailingZeros", "count_trailing_zeros")]:
        text = re.sub(r"\b%s\b" % a, b, text)
    return text


for path in sorted(glob.glob("crates/**/*.antt", recursive=True)):
    text = open(path, encoding="utf-8").read()
    new = renamed(snaked(path, text))
    in_function = re.match(r"crates/\w+/proofs/.+/\w+\.antt$", path)
    if in_function:
        f = path.split("/")[-2]
        new = re.sub(r"(?<![%s])%s-spec(?![%s])" % (LETTER, re.escape(f), LETTER), f + "_spec", new)
    if new != text:
        open(path, "w", encoding="utf-8").write(new)

camel = {n for n in names if "-" not in n}
for path in sorted(glob.glob("crates/**/*.rt", recursive=True)):
    text = open(path, encoding="utf-8").read()
    out = []
    for line in text.split("\n"):
        ghost = re.match(r"\s*(ghost use|requires|ensures|\)|→|×|\[\]|bytes\.)", line)
        out.append(renamed(line) if ghost else TOKEN.sub(lambda m: names[m.group(1)] if m.group(1) in camel else m.group(0), line))
    new = "\n".join(out)
    if new != text:
        open(path, "w", encoding="utf-8").write(new)

for path in sorted(glob.glob("crates/*/must-fail/*.edit")):
    text = open(path, encoding="utf-8").read()
    file = re.search(r"^file: (.*)$", text, re.M).group(1)
    new = text if file.startswith("src/") else "\n".join(l if l.startswith("file:") else renamed(old_words(l)) for l in text.split("\n"))
    if new != text:
        open(path, "w", encoding="utf-8").write(new)
with open(os.environ.get("NAMES", "/dev/null"), "w") as f:
    f.writelines(f"{a} {b}\n" for a, b in sorted(names.items()))
