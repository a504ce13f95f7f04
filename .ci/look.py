"""What the gate looks at beside the proofs. Each look prints what it found amiss, and fails if that is anything.

look.py public      every public function of every crate has no `requires`; its clause `exact`, or its only one, allows one result, what is lent included:
                    it is `result ≡ X` and nothing is lent to be changed, or one name of specs/ on what came in, the result, and what is lent at exit, of
                    which a lemma `.._determined` shows that two results are equal; and docs/STATEMENTS.md has a row for the function that names two
                    must-fail edits, or another call whose edits are its own
look.py layers      no file of a crate that stands on `machine` names a place of the memory: of words' `Layout` it brings in `Mem` and `RUN` alone, and it
                    unfolds nothing that `Spelled` reads from a memory
look.py documents   every link in a document leads to a file, and to a heading where it names one; a link [`NAME`](FILE) to a declaration of NAME in that
                    file; every `NAME` is declared in some crate, or listed here as another's; docs/STATEMENTS.md names every must-fail edit, as *LABEL*,
                    and no other
look.py refused     an edit in the row of a theorem of its crate in docs/STATEMENTS.md is refused by that theorem, or by one of those in the row: each such
                    edit is made in a copy of the crates and checked there, for all that the checker then refuses. `rt ci` tells the first of it only
look.py assumed     `rt ci` has proved every crate, by what it said last (target/ci.log); the C call's archive and the programs are checked here, and rest on
                    no assumed contract but those that are listed here, as the checker counts them
"""

import concurrent.futures
import os
import pathlib
import queue
import re
import shutil
import subprocess
import sys
import tempfile

TOP = pathlib.Path(__file__).resolve().parent.parent
STATEMENTS = TOP / "docs" / "STATEMENTS.md"
EDIT = r"\*([a-z0-9]+(?:_[a-z0-9]+)+)\*"
# a declaration in antt, of a name
DECLARED = r"^\s*(?:unfoldable |abbrev )?(?:pub )?(?:record |data )?{}(?: \(.*\)| \{{.*\}})* :"
# what the archive and the programs rest on, with all that they stand on: the kit's contracts of functions of the C library, and of one of its own that reads
# the number of the C library's last error
SAYS_WHY = {"os::c::__xpg_strerror_r", "os::c::rattle_errno"}
ASSUMED = {
    "tongsparkle_c": set(),
    "sheet": {"libc::read", "libc::write", "os::c::rattle_errno"},
    "examples": {"libc::write", *SAYS_WHY},
    "listing": {"libc::write", *SAYS_WHY},
    "lockstep": {"libc::write", *SAYS_WHY},
}
# in a promise that is one equation or one name: names, numbers and brackets, and no sign that could join two facts
PLAIN = r"[\w\s.()\[\]]+"
# names in the documents that no crate declares: of the kit, of programs and tests, and a variable of the rule
OTHERS = {"rt", "use", "requires", "ensures", "mathlib", "Memᴰ", "Among", "errno", "strerror_r", "open", "stdout", "differ", "random", "ms"}


def functions():
    """Each public function of a crate: the file, the name, and what stands before its body: parameters and promises."""
    for source in sorted(TOP.glob("crates/*/src/**/*.rt")):
        for found in re.finditer(r'^\s*pub (?:extern "C" )?fn (\w+)(.*?)^\s*\{', source.read_text(), re.S | re.M):
            yield source.relative_to(TOP), *found.groups()


def determined():
    """The names of specs/ of which a lemma shows that two results are equal, as NAME inputs r x → NAME inputs s y → (r ≡ s) × (x ≡ y); each with the
    number of values that are a result, here two."""
    specs = "\n".join(source.read_text() for source in TOP.glob("crates/*/specs/**/*.antt"))
    for proof in TOP.glob("crates/*/proofs/**/*.antt"):
        for _, _, lemma in re.findall(r"^( *)pub (\S+_determined) : (.*?)\n\1\2 ", proof.read_text(), re.S | re.M):
            *_, one, two, equal = [[], [], *(part.split() for part in lemma.split("→"))]
            results = [(x, y) for x, y in zip(one, two) if x != y]
            inputs = len(one) - len(results)
            apart = one[:inputs] == two[:inputs] and len({*one, *two}) == len(one) + len(results)
            equations = " × ".join(f"({x} ≡ {y})" for x, y in results)
            said = " ".join(equal) == (equations if len(results) > 1 else equations.strip("()"))
            if apart and said and len(re.findall(DECLARED.format(one[0]), specs, re.M)) == 1:
                yield one[0], len(results)


def one_result(promises, names):
    """Whether the exact promise allows one result only, what is lent at exit included."""
    before, *clauses = re.split(r"^\s*ensures\b", promises, flags=re.M)
    exact = [" ".join(clause.split()) for clause in clauses if clause.startswith(" exact ") or len(clauses) == 1]
    found = [re.fullmatch(rf"(?:exact )?{{ (\w+) (≡ )?({PLAIN}) }}", clause) for clause in exact]
    if len(found) != 1 or not found[0]:
        return False
    name, equation, given = found[0].groups()
    lent = re.findall(r"(\w+): &(?:'\w+ )?mut\b", before)
    values = ["result"] * ("->" in before) + [f"{x}.new" for x in lent]
    # what the other side of an equation, and what stands before a name's values, may not speak of
    outputs = rf"\bresult\b|\.(?:new|exit)\b|\b(?:{'|'.join([*lent, '-'])})\.now\b"
    if equation:
        return name == "result" and not lent and not re.search(outputs, given)
    inputs = given.removesuffix(" ".join(values))
    return (name, len(values)) in names and inputs != given and not re.search(rf"{outputs}|\w$", inputs)


def public():
    names = set(determined())
    rows = [line.split("|") for line in STATEMENTS.read_text().splitlines() if line.startswith("|")]
    for source, name, promises in functions():
        if re.search(r"^\s*requires\b", promises, re.M):
            yield f"{source}: {name} is public and has a requires"
        if not re.search(r"^\s*ensures\b", promises, re.M):
            yield f"{source}: {name} is public and promises nothing"
        elif not one_result(promises, names):
            yield f"{source}: {name} promises neither an equation of its result nor a name of specs/ of which a lemma shows that two results are equal"
        own = [row for row in rows if f"[`{name}`](../{source})" in row[1]]
        if not any(len(re.findall(EDIT, row[-2])) >= 2 or re.search(r"those of `\w+`", row[-2]) for row in own):
            yield f"docs/STATEMENTS.md has no row for {name} of {source} with two edits"


def layers():
    spelled = set(re.findall(r"^unfoldable pub (\w+) : Mem ", (TOP / "crates/words/specs/Spelled.antt").read_text(), re.M))
    for line in (TOP / "crates.txt").read_text().splitlines():
        crate, _, below = line.partition("#")[0].partition(":")
        if "machine" not in below.split():
            continue
        for source in sorted(source for part in ("specs/**/*.antt", "proofs/**/*.antt", "src/**/*.rt") for source in TOP.glob(f"crates/{crate}/{part}")):
            text, where = source.read_text(), source.relative_to(TOP)
            for brought in re.findall(r"\bwords\.specs\.Layout\b(.*?);?$", text, re.M):
                if not re.fullmatch(r"\.\{(?:Mem|RUN)(?:, (?:Mem|RUN))*\}", brought):
                    yield f"{where}: a crate above the machine brings in Layout{brought}"
            unfolded = {name for names in re.findall(r"^ *unfolding (.*)$", text, re.M) for name in names.split()}
            for name in sorted(spelled & unfolded):
                yield f"{where}: a crate above the machine unfolds {name}"


def declares(text, name):
    """Whether the text of a file declares the name, in antt or in Rattle."""
    plain = re.escape(name)
    return re.search(DECLARED.format(plain), text, re.M) or re.search(rf"\b(?:fn|enum|struct|const) {plain}\b", text)


def headings(page):
    """What a link may name of a page: its headings, in small letters, with hyphens for spaces and without other signs."""
    return {re.sub(r"[^\w -]", "", line.lower()).replace(" ", "-") for line in re.findall(r"^#+ (.*)$", page.read_text(), re.M)}


def links(page):
    for shown, link in re.findall(r"\[([^\]]*)\]\(([^)\s]+)\)", page.read_text()):
        if re.match(r"[a-z]+:", link):
            continue
        where = f"{page.relative_to(TOP)}: [{shown}]({link})"
        path, _, heading = link.partition("#")
        target = page.parent / path if path else page
        if not target.exists():
            yield f"{where} leads nowhere"
        elif heading and heading not in headings(target):
            yield f"{where}: no such heading there"
        elif re.fullmatch(r"`[^`]+`", shown) and target.suffix in (".antt", ".rt"):
            if not declares(target.read_text(), shown.strip("`")):
                yield f"{where}: no such declaration there"


def names(page, known):
    """The names in a page, apart from those in its code, that are not known. A file of a crate counts as a name, and so does a crate."""
    text = re.sub(r"^(```.*?^```| {4}.*?)$", "", page.read_text(), flags=re.S | re.M)
    for name in re.findall(r"`([A-Za-z][\w·'-]+)`", text):
        if name not in known and name not in OTHERS:
            yield f"{page.relative_to(TOP)}: no crate has `{name}`"


def documents():
    known = {crate.name for crate in TOP.glob("crates/*")}
    for source in [*TOP.glob("crates/*/specs/**/*.antt"), *TOP.glob("crates/*/proofs/**/*.antt"), *TOP.glob("crates/*/src/**/*.rt")]:
        text = source.read_text()
        known.add(source.stem)
        known.update(re.findall(DECLARED.format(r"([^\s(){}:]+)"), text, re.M))
        # what Rattle declares, and the cases of its enums
        known.update(re.findall(r"\b(?:fn|enum|struct|const) (\w+)", text) + re.findall(r"^    (\w+)(?:\(.*\))?,$", text, re.M))
    for page in sorted([*TOP.glob("*.md"), *TOP.glob("docs/**/*.md"), *TOP.glob("bench/*.md"), *TOP.glob("nights/*.md")]):
        yield from links(page)
        yield from names(page, known)
    named = set(re.findall(EDIT, STATEMENTS.read_text()))
    there = {edit.stem for edit in TOP.glob("crates/*/must-fail/*.edit")}
    for label in sorted(there - named):
        yield f"docs/STATEMENTS.md does not say what {label} is for"
    for label in sorted(named - there):
        yield f"docs/STATEMENTS.md names {label}, and there is no such edit"


# what the checker says under an edit: of a declaration that it refuses, and of those that stand on a refused one, of which it names three in each file
REFUSES = r"^\./\S+:\d+:\d+: error: `([^`]+)`:"
UNCHECKED = r"^\./(\S+):\d+:\d+: error: (\d+) declarations? that depends? on `([^`]+)`, which .*? not checked: (.*?)(?: and \d+ more)?$"
NAME = r"[^\s(){},.;:`]+"


def cited(text):
    """Of each declaration of a file of proofs: the names in its text, which goes on over deeper lines, and over those that begin with its own name."""
    lines, found, at = [line.partition("--")[0].rstrip() for line in text.splitlines()], {}, 0
    while at < len(lines):
        begun = re.match(DECLARED.format(f"({NAME})"), lines[at])
        end = at + 1
        if begun:
            indent = " " * (len(lines[at]) - len(lines[at].lstrip()))
            while end < len(lines) and re.match(rf"{indent} |$|{indent}(?:unfolding|{re.escape(begun.group(1))})\s|{indent}[}})]", lines[end]):
                end += 1
            # a field that is declared, given or read is not cited: of a name with points behind it, only what a module has
            words = re.findall(r"[^\s(){},;:`]+", re.sub(rf"{NAME}(?= [:=] )", "", "\n".join(lines[at:end])))
            names = (word.split(".")[: None if word[0].isupper() else 1] for word in words)
            found.setdefault(begun.group(1), set()).update(name for parts in names for name in parts)
        at = end
    return found


def refusals(crate, said):
    """By what a check of the crate said, the names that it does not admit. Of a file in which it does not name all that stand on a refused declaration, all
    are taken that come to that one by what they cite, where they are as many as it says."""
    names = set(re.findall(REFUSES, said, re.M))
    unchecked = [(path, int(number), on, re.findall(rf"({NAME})(?: \(via {NAME}\))?(?:, |$)", some)) for path, number, on, some in re.findall(UNCHECKED, said, re.M)]
    # those that are refused themselves, or are said to stand on another, are counted there
    told = names.union(*(some for *_, some in unchecked))
    files = {str(source.relative_to(crate)): cited(source.read_text()) for source in crate.glob("proofs/**/*.antt")}
    for path, number, on, some in unchecked:
        standing, before = {on}, 0
        while before < len(standing):
            before = len(standing)
            standing.update(name for own in files.values() for name, by in own.items() if by & standing)
        standing = {name for name in standing & set(files.get(path, {})) if name in some or name not in {on, *told}}
        names.update(standing if number == len(standing) else some)
    return names


def linked(one, other):
    """Gives a file that a check made another name: a check replaces such a file, and changes none. Any other file is copied."""
    if re.search(r"/out/rlib/|\.oantt$", one):
        try:
            return os.link(one, other)
        except OSError:
            pass
    return shutil.copy2(one, other)


def replaced(edit, crate):
    """Makes an edit: lines 'file: FILE', and pairs of lines 'old: TEXT' and 'new: TEXT', where each old text stands once."""
    for line in edit.read_text().splitlines():
        word, _, text = line.partition(": ")
        if word == "file":
            file = crate / text.strip()
        elif word == "old":
            old = text
        elif word.startswith("new"):
            if file.read_text().count(old) != 1:
                raise ValueError(f"what it changes does not stand in {file.name} once")
            file.write_text(file.read_text().replace(old, text))


def checked(rooms, label, crate):
    """What the check of a crate says under an edit: in a copy of the crates that no other check is in, and over what the checks here kept."""
    room = rooms.get()
    try:
        there, here = room / "crates" / crate, TOP / "crates" / crate
        for part in ("src", "specs", "proofs", "out/incremental"):
            shutil.rmtree(there / part, ignore_errors=True)
            if (here / part).exists():
                shutil.copytree(here / part, there / part, copy_function=linked)
        replaced(here / "must-fail" / f"{label}.edit", there)
        done = subprocess.run(["rt", "check", "--jobs", "1"], cwd=there, stdin=subprocess.DEVNULL, stdout=subprocess.PIPE, stderr=subprocess.STDOUT, text=True)
        for part in ("src", "specs", "proofs"):
            shutil.rmtree(there / part, ignore_errors=True)
            if (here / part).exists():
                shutil.copytree(here / part, there / part)
        return done.stdout
    except ValueError as error:
        return f"{error}\n"
    finally:
        rooms.put(room)


def refused():
    tried = {edit.stem: edit.parent.parent.name for edit in TOP.glob("crates/*/must-fail/*.edit")}
    rows = {}
    for row in [line.split("|") for line in STATEMENTS.read_text().splitlines() if line.startswith("|")]:
        theorems = re.findall(r"\[`([^`]+)`\]\(\.\./crates/(\w+)/proofs/", row[1])
        for label in re.findall(EDIT, row[-2]):
            own = [name for name, crate in theorems if crate == tried.get(label)]
            if own:
                rows.setdefault(label, []).append(own)
    # a check takes up to 3 GB
    free = re.search(r"^MemAvailable: +(\d+) kB$", pathlib.Path("/proc/meminfo").read_text(), re.M)
    at_once = min(len(os.sched_getaffinity(0)), max(1, int(free.group(1)) // 3_000_000 if free else 1))
    # what a check of the crate as it stands keeps, for those of its edits to begin with
    for crate in sorted({tried[label] for label in rows}):
        if not (TOP / "crates" / crate / "out" / "incremental").exists():
            subprocess.run(["rt", "check"], cwd=TOP / "crates" / crate, stdin=subprocess.DEVNULL, stdout=subprocess.DEVNULL, stderr=subprocess.DEVNULL)
    with tempfile.TemporaryDirectory() as folder:
        rooms = queue.Queue()
        for number in range(at_once):
            room = pathlib.Path(folder) / str(number)
            (room / ".git").mkdir(parents=True)
            shutil.copy(TOP / "crates.txt", room)
            # of what was made, the libraries alone
            shutil.copytree(TOP / "crates", room / "crates", ignore=lambda at, names: {*names} - {"rlib"} if at.endswith("/out") else [], copy_function=linked)
            rooms.put(room)
        with concurrent.futures.ThreadPoolExecutor(at_once) as pool:
            said = dict(zip(rows, pool.map(lambda label: checked(rooms, label, tried[label]), rows)))
    for label, each in rows.items():
        names = refusals(TOP / "crates" / tried[label], said[label])
        if not re.search(r"^logic=not-proved", said[label], re.M) or re.search(r"^(?:\./)?(?:src|specs)/\S+: error", said[label], re.M):
            yield f"{label} was not tried, or is refused as it is written:\n{said[label][-2000:]}"
            continue
        for own in each:
            if not names & set(own):
                yield f"{label} is in the row of {', '.join(own)}, and the checker does not refuse that"


def assumed():
    log = TOP / "target" / "ci.log"
    proved = re.findall(r"^rt: (\w+) (?:proved|is kept: an earlier run on this machine proved the same files)\b", log.read_text() if log.exists() else "", re.M)
    rows = [line.partition("#")[0].partition(":") for line in (TOP / "crates.txt").read_text().splitlines()]
    below = {names.split()[0]: used.split() for names, _, used in rows if names.strip()}
    # only where code is made for a machine does the checker count what the whole of it rests on
    made = [names.split()[0] for names, _, _ in rows if names.strip() and ("staticlib" in names.split() or (TOP / "crates" / names.split()[0] / "src/main.rt").exists())]
    for name in below:
        if name not in proved:
            yield f"{name} is not known to be proved: `rt ci` has not said so in {log.relative_to(TOP)}"
        if name not in made and not any(name in below[other] for other in made):
            yield f"what {name} rests on is counted nowhere: it is in no archive and in no program"
    for name in made:
        done = subprocess.run(["rt", "check"], cwd=TOP / "crates" / name, stdin=subprocess.DEVNULL, stdout=subprocess.PIPE, stderr=subprocess.STDOUT, text=True)
        last = re.findall(r"^logic=proved .*$", done.stdout, re.M)[-1:]
        if done.returncode != 0 or not last:
            yield f"{name} is not proved by its check:\n{done.stdout[-2000:]}"
            continue
        if " target=" not in last[0] or not re.search(r"^axioms std: ", done.stdout, re.M):
            yield f"what {name} rests on was not counted"
        rests = {axiom for axioms in re.findall(r"^axioms \S+ (?!none )(.*?) \(", done.stdout, re.M) for axiom in axioms.split(", ")}
        counted = sum(map(int, re.findall(r" axioms=(\d+)", last[0])))
        if rests != ASSUMED.get(name, set()) or counted != len(rests) or " foreign=" in done.stdout:
            yield f"{name} rests on {sorted(rests)}, counted as {counted}"


LOOKS = {"public": public, "layers": layers, "documents": documents, "refused": refused, "assumed": assumed}

if __name__ == "__main__":
    if len(sys.argv) != 2 or sys.argv[1] not in LOOKS:
        sys.exit(__doc__)
    amiss = list(LOOKS[sys.argv[1]]())
    for line in amiss:
        print(f"  {line}")
    sys.exit(1 if amiss else 0)
