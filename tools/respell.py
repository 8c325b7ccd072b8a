#!/usr/bin/env python3
"""Brings this repository's own names to the spelling of today's Rattle: a word (a definition, a lemma, a constructor, a field) is in snake
case, a type or a module in upper camel case. Run once, at the top, after the toolchain's script (docs/PORT.md), and never again.

It reads the names that the files of crates/*/specs and crates/*/proofs/*.antt declare. A name with a dash or a capital inside becomes one
with underscores. A lemma whose new name a definition of the repository has already gets the ending `_lem`. Names of functions of src/, of
generated goals and of libraries stay: a file's token is turned only if the file declares it or brings it in from this repository, and
behind a dot only if it is a field or a constructor of this repository.
"""
import collections
import glob
import os
import re
import sys

WORD = r"[^\s(){}\[\].,;:λ\"`]+"
SIGNATURE = re.compile(
    r"^(\s*)((?:(?:abbrev|unfoldable|pub|data|record|module)\s+)*)((?:" + WORD + r"\s+)*?" + WORD + r")((?:\s*\{[^}]*\}|\s*\([^)]*\))*)\s*:\s(?!:)(.*)$"
)
TOKEN = re.compile(r"[A-Za-z_][A-Za-z0-9_'′]*(?:-[A-Za-z0-9_'′]+)*")
KEYWORDS = {"where", "use", "let", "in", "elim", "do", "open", "as", "infixr", "infixl", "infix", "module", "λ"}
# Names that a rule would bring together: the tests of `words` beside the operators of `meaning`; a field beside its function.
BY_HAND = {
    "at_least_lem": "at_least", "at_least": "test_at_least", "at_most": "test_at_most", "is_null": "test_null", "notNull": "test_not_null",
    "branch-count": "count", "noneOf": "none_of", "one_of": "one_of",
}
# .. of which these are the tests of `words` only where a file stands in that crate or brings them in from there
TESTS = {"at_least", "at_most", "is_null", "notNull"}
GOAL = re.compile(r"^(tie|goal|g)\.")


def snake(name):
    name = name.replace("′", "'")
    if name[0].isupper():
        return re.sub(r"-([0-9])", r"\1", name).replace("-", "_")
    name = name.replace("-", "_")
    return re.sub(r"(?<=[a-z0-9])([A-Z])", lambda m: "_" + m.group(1).lower(), name)


def declared(path):
    """The names that a file declares, each with what its line says behind the colon."""
    for line in open(path, encoding="utf-8"):
        text = line.strip()
        if text.startswith("--") or text.startswith("use "):
            continue
        m = SIGNATURE.match(line)
        if not m:
            continue
        names = m.group(3).split()
        if any(n in KEYWORDS or not TOKEN.fullmatch(n) for n in names):
            continue
        for n in names:
            yield n, m.group(5)


def imports(text, crates):
    """The names that use lines bring in: from this repository's specs and lemma files, and from elsewhere."""
    ours, others = set(), set()
    for m in re.finditer(r"(?:^|\n)\s*(?:pub )?(?:ghost )?use ([^\s{};]+?)\.\{([^}]*)\}", text):
        path, names = m.group(1), m.group(2)
        part = re.match(r"Rattle\.(\w+)\.(specs|proofs)\.[A-Z]\w*$", path)
        goes = ours if part and part.group(1) in crates else others
        for n in names.split(","):
            n = n.strip()
            n = re.split(r"\s+as\s+", n)[0].split(".")[-1]
            if n:
                goes.add(n)
    return ours, others


def main():
    crates = {l.split(":")[0].split()[0] for l in open("crates.txt") if l.strip() and not l.startswith("#")}
    tops = sorted(glob.glob("crates/*/specs/*.antt") + glob.glob("crates/*/proofs/*.antt"))
    where = collections.defaultdict(set)
    for path in tops:
        for n, _ in declared(path):
            where[n].add(path)
    everything = tops + sorted(glob.glob("crates/*/proofs/**/Proof.antt", recursive=True) + glob.glob("crates/*/src/**/*.rt", recursive=True))
    want = {n: BY_HAND.get(n, snake(n)) for n in where}
    # where a file sees two names that fall together, one of them gets the ending: a lemma before a definition
    ending = set()
    for path in everything:
        ours, others = imports(open(path, encoding="utf-8").read(), crates)
        sees = ours | (set() if path.endswith(".rt") else {n for n, t in declared(path) if not GOAL.match(t)})
        by = collections.defaultdict(set)
        for n in sees:
            by[want.get(n, n)].add(n)
        for new, olds in by.items():
            if len(olds) > 1 and new != "_":
                lemmas = [n for n in sorted(olds) if n in where and all("/proofs/" in p for p in where[n])]
                for n in lemmas[:1] if len(lemmas) < len(olds) else lemmas[:-1]:
                    ending.add(n)
                if not lemmas:
                    print(f"falls together: {path}: {sorted(olds)} are {new}")
    turn = {}
    for n in sorted(where):
        new = want[n] + ("_lem" if n in ending else "")
        if n in ending:
            print(f"the ending _lem: {n} is {new}")
        if new != n:
            turn[n] = new
    members = set()
    for path in tops:
        inside = False
        for line in open(path, encoding="utf-8"):
            if re.match(r"\s*(pub )?(data|record) ", line):
                inside = True
                continue
            if inside and line.strip() and not line.startswith(" "):
                inside = False
            if inside:
                m = SIGNATURE.match(line)
                if m:
                    members.update(m.group(3).split())
    changed = 0
    for path in everything:
        text = open(path, encoding="utf-8").read()
        ours, others = imports(text, crates)
        source = path.endswith(".rt")
        tests = "/words/" in path or "Rattle.words.specs.Meaning." in text
        deep = path.endswith("Proof.antt")
        local = set() if source else {n for n, t in declared(path) if not (deep and GOAL.match(t))}
        here = (local | ours) - (others - local)
        more = {}
        if deep:
            for n in local:
                if n not in turn and snake(n) != n and not n.endswith("-spec"):
                    more[n] = snake(n)
        out = []
        present = {m.group(0) for m in TOKEN.finditer(text)}
        hit = set()
        for line in text.split("\n"):
            ghost = not source or not re.match(r"\s*//", line)

            def put(m):
                n = m.group(0)
                if n in TESTS and not tests:
                    return n
                before = line[m.start() - 1] if m.start() else ""
                new = more.get(n) or turn.get(n)
                if not new:
                    return n
                if before == ".":
                    two = line[max(0, m.start() - 2)]
                    if n in members or re.search(r"(?:^|[\s(])[a-z]\w*\.$", line[: m.start()]) and not re.search(r"(?:^|[\s(])(c|w|goal|tie)(\.|$)[^\s]*$", line[: m.start()]) and n in turn and not deep:
                        hit.add(n)
                        return new
                    if re.search(r"(?:^|[\s(])[a-z]\w*\.$", line[: m.start()]) and n in turn and not re.search(r"(?:^|[\s(])(c|w|goal|tie)\.$", line[: m.start()]):
                        hit.add(n)
                        return new
                    return n
                # a label of a record literal needs no import
                label = n in members and n not in others and re.match(r"\s*=(?!=)", line[m.end() :])
                if n in here or label:
                    hit.add(n)
                    return new
                return n

            out.append(TOKEN.sub(put, line))
        new_text = "\n".join(out)
        for n in hit:
            new = more.get(n) or turn[n]
            if new in present and new not in turn:
                print(f"beside its own new name: {path}: {n} is {new}")
        if new_text != text:
            changed += 1
            open(path, "w", encoding="utf-8").write(new_text)
    print(f"respell: {len(turn)} names, {changed} files")


main()
