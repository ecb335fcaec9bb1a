#!/usr/bin/env python3
"""Brings the repository's own definitions, fields and lemmas to the spelling of today's Rattle.

usage: python3 tools/respell.py [--dry]      at the top of the repository, once, after port.py

Definitions and fields are in snake case (`timeOf` is `time_of`, the field `few-sensors` is `few_sensors`).  In a
lemma's name a dash
joins two names of definitions (`fold-append`); a plain word is added with `_` (`run_law`).  Types and the names of
constants of src/
keep their capitals.  Names of functions of src/, strings, inputs and outputs are not touched.
"""
import collections
import os
import re
import sys

TOP = re.compile(r"^(?:abbrev |unfoldable )?(?:pub )?([^\s(){};:,]+) :(?: |$)")
KIND = re.compile(r"^(?:pub )?(record|data)\s+([^\s(){};:,]+)")
NESTED = re.compile(r"^\s+(?:abbrev |unfoldable )?pub ([^\s(){};:,]+) :(?: |$)")
FIELD = re.compile(r"^\s+(?:pub )?([^\s(){};:,]+) : ")
# a name of antt: what stands between blanks, brackets, dots, commas and semicolons
TOKEN = re.compile(r"[^\s(){}\[\];,.:λ`\"]+")
# names of the library that stand in our lemmas' names
LIBRARY = set("length map drop take set get append reverse filter fold foldl find insert sort cons cond suc zero sub add mul le lt ge"
              " eqb leb ltb All Any or and not min max pow div minus".split())

# names that would otherwise fall together with a name that stands: a field or a definition
APART = {
    "nextId": "next_id_after",
    "maxPasses": "max_passes_of",
    "predictionOnly": "prediction_only_of",
    "heightCount": "height_count_after",
    "one_more": "one_more_lem",
    "printed-numbers": "printed_numbers_lem",
    "kept_frame": "kept_frame_lem",
    "is-opened": "is_opened_lem",
    "is-counted": "is_counted_lem",
    "seen_twice": "seen_twice_lem",
}

# names that the table does not see: a field whose type stands on the next line, local names, names given by an import
MORE = (
    "all-consPair all-pairsWith asSearched byBounds costRun costStep dropMove flatMap-more formAssociation formHead formTrack matAdd matMul"
    " matSub onClear onExchange onPair onTrack openingIn pushSmoother pushedBy scansNoted settleFrame splitMove takeSmoother windowOf"
).split()


def files(root):
    for d, ds, fs in os.walk(os.path.join(root, "crates")):
        ds[:] = sorted(x for x in ds if x not in ("out", "data"))
        for f in sorted(fs):
            if f.endswith((".antt", ".rt", ".edit")):
                yield os.path.join(d, f)


def snake(name):
    """`timeOf` as `time_of`; a fact's capital stays where it follows a dash (`has-All`)."""
    if name[0].isupper():
        return name
    return "-".join(p if p[:1].isupper() else re.sub(r"(?<=[a-z0-9])([A-Z])", lambda m: "_" + m.group(1).lower(), p) for p in name.split("-"))


def declared(root):
    """Names by kind: definitions of specs/, types, fields, and the rest of proofs/."""
    out = collections.defaultdict(set)
    for p in files(root):
        if not p.endswith(".antt"):
            continue
        where = "specs" if "/specs/" in p else "proofs"
        inside = False
        for line in open(p, encoding="utf-8"):
            k = KIND.match(line)
            if k:
                out["type"].add(k.group(2))
                inside = True
                continue
            t = TOP.match(line)
            if t:
                inside = False
                goal = re.search(r": tie\.", line) or t.group(1).endswith("-spec")
                out["goal" if goal and p.endswith("Proof.antt") else where].add(t.group(1))
                continue
            if inside:
                f = FIELD.match(line)
                if f:
                    out["field"].add(f.group(1))
            elif NESTED.match(line):
                out[where].add(NESTED.match(line).group(1))
            if re.match(r"^\S", line):
                inside = False
    return out


def table(root):
    names = declared(root)
    defs = names["specs"] | names["type"]
    known = {snake(n) for n in defs} | LIBRARY
    turn = {}
    for n in sorted(names["specs"] | names["proofs"] | names["field"]):
        if "◌" in n or n == "_" or n in names["goal"] and n not in names["specs"] | names["field"]:
            continue
        new = snake(n)
        if "-" in new:
            parts = new.split("-")
            if n in names["field"]:
                new = new.replace("-", "_")
            elif not all(p in known for p in parts):
                new = "_".join(parts)
        if new != n:
            turn[n] = new
    # a lemma that would have its definition's name gets `_lem`
    taken = {turn.get(n, n) for n in names["specs"]}
    for n in sorted(names["proofs"] - names["specs"]):
        if turn.get(n, n) in taken:
            turn[n] = turn.get(n, n) + "_lem"
    turn.update(APART)
    turn.update({n: snake(n) for n in MORE})
    return turn, names


LENT = re.compile(r"^(?:ghost )?use (?!Rattle\.(?!std\b|core\b))[^\n{]*\{([^}]*)\}", re.M)


def turned(text, turn, comment):
    """The text with each whole name that the table has, turned; a line comment keeps its dashed words, and a name that
    the file has
    from the library is turned as a field alone."""
    lent = {n.split(" as ")[-1].strip() for names in LENT.findall(text) for n in names.split(",")} & set(turn)
    lines = []
    for line in text.split("\n"):
        cut = line.find(comment) if comment else -1
        code, rest = (line, "") if cut < 0 else (line[:cut], line[cut:])
        code = TOKEN.sub(lambda m: m.group(0) if m.group(0) in lent and m.string[m.start() - 1 : m.start()] != "." else turn.get(m.group(0), m.group(0)), code)
        rest = TOKEN.sub(lambda m: turn[m.group(0)] if m.group(0) in turn and "-" not in m.group(0) else m.group(0), rest)
        lines.append(code + rest)
    return "\n".join(lines)


def main():
    root = os.getcwd()
    turn, names = table(root)
    tokens = collections.defaultdict(set)
    for p in files(root):
        for t in TOKEN.findall(open(p, encoding="utf-8").read()):
            tokens[t].add(p)
    together = collections.defaultdict(list)
    for a, b in turn.items():
        together[b].append(a)
    for b, olds in sorted(together.items()):
        if len(olds) > 1:
            print("together:", b, "from", olds)
        if b in tokens:
            both = sorted(set.union(*(tokens[o] for o in olds)) & tokens[b])
            both = [x for x in both if x.endswith(".antt") and not x.endswith("Proof.antt")]
            if both:
                print("there already:", b, "from", olds, "in one file:", [os.path.relpath(x, root) for x in both][:6], len(tokens[b]))
    spoken = {turn[n] for n in names["specs"] if n in turn}
    for p in files(root):
        if p.endswith(".rt"):
            text = turned(open(p, encoding="utf-8").read(), turn, "//")
            for f in re.findall(r"^(?:pub )?struct [^{;]*\{(.*?)^\}", text, re.M | re.S):
                for n in re.findall(r"(\w+):", f):
                    if n in spoken:
                        print("a field of src:", n, os.path.relpath(p, root))
            for params, clauses in re.findall(r"\bfn \w+(?:<[^(]*>)?\((.*?)\)(?: ->[^\n]*)?\n((?:\s+(?:requires|ensures)[^\n]*\n)+)", text, re.S):
                for n in re.findall(r"(\w+):", params):
                    if n in spoken and re.search(r"(?<![\w.])" + n + r"(?![\w])", clauses):
                        print("a parameter and a word:", n, os.path.relpath(p, root))
    if "--dry" in sys.argv:
        return
    changed = 0
    for p in files(root):
        old = open(p, encoding="utf-8").read()
        # functions of src/ keep their names: there only names that antt alone can spell are turned
        if p.endswith(".rt"):
            table_of = {a: b for a, b in turn.items() if "-" in a or a != a.lower()}
        else:
            table_of = turn
        comment = "--" if p.endswith(".antt") else "//" if p.endswith(".rt") else ""
        new = turned(old, table_of, comment)
        if new != old:
            changed += 1
            open(p, "w", encoding="utf-8").write(new)
    print(len(turn), "names,", changed, "files")


if __name__ == "__main__":
    main()
