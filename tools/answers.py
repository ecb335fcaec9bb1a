#!/usr/bin/env python3
"""Turns the proofs of an older Rattle to today's two files, function by function.

usage: python3 tools/answers.py ROOT NAMES CRATE[:PATH] ..      once, after port.py and tools/respell.py; with PATH,
functions that end so

ROOT is the top of the repository.  NAMES/CRATE/names.json is what `rt names NAMES/CRATE` writes in the crate's folder:
of each function
the goals, places, steps and loops by their old and their new names.

Before, proofs/F/Proof.antt answered each goal by a function of the place at which it was asked, and cited what held
there by going back
place by place (`c.before.before.if1.true`); an invariant had a loop's variables as parameters.  Now Answers.antt cites
steps by their
names (`c.if-NAME.true`), and Invariants.antt fields of the loop's state (`l.NAME`, `l.initial.NAME`).  An answer to
several clauses,
once a tuple, is a record.  An answer that only says `search rules`, or `tt`, goes: the check finds it.  Helpers of the
file go with the
answers.  Proof.antt is removed.

Lines `CRATE PATH NOTE ..` say what was left to be done by hand; `RAW` is a proof that walks the code and is not
touched.
"""
import json
import os
import re
import sys
from difflib import SequenceMatcher

SIGNATURE = re.compile(r"^((?:abbrev |unfoldable )?(?:pub )?)([^\s(){};:,]+) : ?(.*)$")
HEAD = re.compile(r"^(use |--|pub record|record|data|pub data|module|mod |pub mod)")
IMPORT = re.compile(r"use ([^\s{]+?)\.?\{(.*)\}\s*$", re.S)
# fields of the place at which a function begins
AT_START = {"args", "ranges", "requires", "well-formed", "well_formed", "told", "met", "claims", "utf8"}
# stands before and after a name that is whole
BEFORE, AFTER = r"(?<![\w.'-])", r"(?![\w'-])"


# ---- text


def blocks(text):
    """The declarations of a file, each as its lines, with the remarks before it."""
    out, block = [], []
    for line in text.split("\n"):
        if re.match(r"^\S", line) and (SIGNATURE.match(line) or HEAD.match(line)):
            only_remarks = block and all(l.startswith("--") for l in block)
            if not only_remarks or line.startswith("use "):
                if block:
                    out.append(block)
                block = []
        block.append(line)
    return out + [block] if block else out


def signature(block):
    """The name and type of the first declaration in a block, if there is one."""
    return next((m for m in map(SIGNATURE.match, (l for l in block if not l.startswith("--"))) if m), None)


def parts_of(block, name):
    """A definition's remarks, its line `unfolding`, its parameters and its right side; None where it goes by
    clauses."""
    remarks = [l for l in block if l.startswith("--")]
    lines = [l for l in block if not l.startswith("--")][1:]
    unfolding = [l for l in lines if l.startswith("unfolding")]
    body = "\n".join(l for l in lines if not l.startswith("unfolding")).rstrip("\n ")
    m = re.match(rf"{re.escape(name)}((?: [^\s=]+)*) =", body)
    return (remarks, unfolding, m.group(1).split(), body[m.end() :]) if m else None


def imports_used(imports, body):
    """The imports, each with the names alone that the body has."""
    tokens, words, out = set(re.findall(r"[^\s(){}\[\];,.]+", body)), set(body.split()), []
    for line in imports:
        m = IMPORT.match(line)
        if not m:
            out.append(line.strip())
            continue
        kept = []
        for name in (n.strip() for n in m.group(2).split(",") if n.strip()):
            said = name.split(" as ")[-1]
            if all(p in body for p in said.split("◌") if p) if "◌" in said else said in tokens or said in words:
                kept.append(name)
        if kept:
            out.append(f"use {m.group(1)}.{{{', '.join(kept)}}}")
    return out


# ---- names


def alike(name):
    """A step's name however it is spelled."""
    return re.sub(r"-+", "-", re.sub(r"_lem(?=\d*$)", "", name).replace("_", "-").strip("«»")).lower()


def goal_alike(name):
    """A goal's name however it is spelled; some kinds of goals have other words now."""
    return re.sub(r"^(overflow|nonzero)-", "", alike(name)).replace("array-read", "element-copy-out")


class Function:
    """What names.json says of a function; the lists about places are kept by the places' old names."""

    def __init__(self, said):
        self.said = said
        self.order = [p[0] for p in said["places"]]
        self.parent = {p[0]: p[1] for p in said["places"]}
        self.step = {p[0]: p[2] for p in said["places"]}  # old name, new name
        self.callee = {p[0]: p[3] for p in said["places"]}
        self.arm = dict(zip(self.order, said["arms"]))
        self.typed = dict(zip(self.order, said["typed"]))
        self.clauses = dict(zip(self.order, said["clauses"]))

    def back_from(self, place):
        """The places from this one back to the start; all of them where the place is not known."""
        if not place:
            return self.order
        out = []
        while place is not None:
            out.append(place)
            place = self.parent[place]
        return out

    def goals_by_old(self, goals, notes):
        """For each old goal its place among the new ones, as far as the two lists agree."""
        old = [goal_alike(re.match(r"tie\.Need-(\S+)", kind).group(1)) for _, kind, _ in goals]
        new = [goal_alike(need[0]) for need in self.said["needs"]]
        if len(old) == len(new):
            return {i: i for i in range(len(old))}
        found = {}
        for tag, a, b, c, d in SequenceMatcher(None, old, new, autojunk=False).get_opcodes():
            if tag == "equal" or tag == "replace" and b - a == d - c:
                found.update((a + i, c + i) for i in range(b - a))
        lost, more = [n for i, n in enumerate(old) if i not in found], [n for i, n in enumerate(new) if i not in found.values()]
        notes.append(f"goals differ: old-only {lost} new-only {more}")
        return found


# ---- paths


def by_clause(rest, field, names):
    """`.ensures.1` as `.ensures.NAME`, where the clauses have names."""
    m = re.match(rf"\.{field}\.(\d+)", rest)
    return f".{field}.{names[int(m.group(1))]}{rest[m.end():]}" if m and int(m.group(1)) < len(names) else rest


def by_parameter(rest, field, names, notes):
    """`.new.1.0` as `.new.NAME`: what a call gives back was a nest of pairs, one for each parameter."""
    m = re.match(rf"\.{field}((?:\.1)*)(\.0)?", rest)
    n = m.group(1).count(".1")
    if n < len(names) and (m.group(2) or n == len(names) - 1):
        return f".{field}.{names[n]}{rest[m.end():]}"
    notes.append(f"new position {rest}")
    return rest


def turned_path(function, place, path, notes):
    """A path from a place, as `.if1.true`, from the answer's one parameter `c`."""
    m = re.match(r"\.([^\s.(){};,]+)", path)
    step, rest = re.sub(r"^type_size", "size_of", m.group(1)), path[m.end() :]
    if step in AT_START or step.startswith(("told-", "fits-")):
        step = "well_formed" if step == "well-formed" else step
        if step == "requires" and function.said.get("pre"):
            rest = by_clause(f".requires{rest}", "requires", function.said["pre"]["fields"])[len(".requires") :]
        for old, new in ((a.replace(" ", ""), b.replace(" ", "")) for a, b in function.said["args"]):
            if f".{step}{rest}".startswith(old):
                return "c" + new + f".{step}{rest}"[len(old) :]
        return f"c.{step}{rest}"
    back = function.back_from(place)
    # a field of an arm: of two that fit, the one that goes deeper
    for p in back:
        if function.arm.get(p):
            name, _, fields = function.arm[p]
            fitting = [(new, "".join(f".{x}" for x in within)) for new, old, within in fields if alike(old) == alike(step)]
            fitting = [(new, within) for new, within in fitting if rest == within or rest.startswith(within + ".")]
            best = max(fitting, key=lambda f: len(f[1]), default=None)
            if best and best[1]:
                return f"c.{name}.{best[0]}{rest[len(best[1]):]}"
    # a fact of a variable's type
    for p in back:
        for variable, old in function.typed.get(p, []):
            if alike(old) == alike(step) and rest.startswith(".given"):
                return f"c.type_inv.{variable}{rest[len('.given'):]}"
    # a step
    for p in back:
        old, new = function.step[p]
        if old and alike(old) == alike(step):
            callee = function.callee[p]
            for field in ("new", "auto"):
                if callee and rest.startswith(f".{field}."):
                    rest = by_parameter(rest, field, function.said["params"].get(callee, []), notes)
            if function.clauses[p]:
                rest = by_clause(rest, "ensures", function.clauses[p]["fields"])
            return f"c.{new}{rest.replace('.type-inv', '.type_inv')}"
    notes.append(f"step {step} {path}")
    return f"c.{step}{rest}"


def turned_answer(function, place, text, notes):
    """An answer's right side, with each path turned."""
    places = {"c"}
    # `let NAME = c.before in`: another name of a place goes
    while True:
        m = re.search(rf"let ([\w']+) = (?:{'|'.join(sorted(map(re.escape, places)))})(?:\.before)* in[ \n]*", text)
        if not m:
            break
        places.add(m.group(1))
        text = text[: m.start()] + text[m.end() :]
    any_place = "|".join(sorted(map(re.escape, places), key=len, reverse=True))
    # `let NAME = c.before.STEP in`: written out, where parts of it are cited that have names now
    named = re.compile(rf"let ([\w']+) = ((?:{any_place})(?:\.before)*\.(?!args\b|ranges\b|requires\b)[^\s.(){{}};,]+) in[ \n]*")
    at = 0
    while m := named.search(text, at):
        name = re.escape(m.group(1))
        if re.search(rf"{BEFORE}{name}\.(new|auto|given|ensures)\.", text[m.end() :]):
            text = text[: m.start()] + re.sub(rf"{BEFORE}{name}(?=\.)", lambda _: m.group(2), text[m.end() :])
            at = m.start()
        else:
            at = m.end()

    def turn(m):
        name, back, path = m.groups()
        if path:
            return turned_path(function, place, path, notes)
        if name != "c" or back:
            notes.append(f"bare {m.group(0)}")
        return "c"

    return re.sub(rf"{BEFORE}({any_place})((?:\.before)*)((?:\.[^\s.(){{}};,\[\]]+)*)", turn, text)


# ---- answers of several clauses


def tuple_parts(text):
    """The parts of `(a, b, c)`, where the brackets hold the whole text."""
    text, depth, parts, part = text.strip(), 0, [], ""
    if not (text.startswith("(") and text.endswith(")")):
        return None
    for i, x in enumerate(text):
        depth += (x in "([{") - (x in ")]}")
        if depth == 0 and i < len(text) - 1:
            return None
        if x == "," and depth == 1:
            parts, part = [*parts, part], ""
        elif depth >= 1 and i > 0:
            part += x
    return [p.strip() for p in ([*parts, part] if part.strip() else parts)]


def after_lets(text):
    """The text up to the last `in` outside brackets, and what follows."""
    depth, cut = 0, 0
    for m in re.finditer(r"[()\[\]{}]|(?<![\w'])in(?![\w'-])", text):
        if m.group(0) == "in":
            cut = cut if depth else m.end()
        else:
            depth += 1 if m.group(0) in "([{" else -1
    return text[:cut], text[cut:]


def as_record(goal, right, clauses, notes):
    """An answer to a goal that has clauses by name: before, they were a tuple."""
    lets, last = after_lets(right)
    parts = tuple_parts(last)
    if parts and len(parts) == len(clauses):
        new = "record { " + "; ".join(f"{c} = {p}" for c, p in zip(clauses, parts)) + " }"
    elif last.strip().startswith(("record {", "λ", "elim", "rw", "simp", "subst")):
        notes.append(f"clauses of {goal}: {clauses}")
        return right
    else:
        new = f"let both = {last.strip()} in record {{ " + "; ".join(f"{c} = both.{i}" for i, c in enumerate(clauses)) + " }"
    space = re.match(r"\s*", last).group(0)
    return lets + (space if "\n" in space else " ") + new


# ---- the two files


def answers(function, goals, notes):
    """The text of Answers.antt, answer by answer."""
    out, new_of = [], function.goals_by_old(goals, notes)
    by_old = {old: new for old, new in function.said["needs"]}
    clauses = {by_old.get(old, old): names for old, names in function.said["asked"].items()}
    for i, (name, _, block) in enumerate(goals):
        if i not in new_of:
            notes.append(f"no goal for {name}")
            continue
        goal, place = function.said["needs"][new_of[i]][1], function.said["asked_at"][new_of[i]][0]
        parts = parts_of(block, name)
        if not parts:
            notes.append(f"clause form {name}")
            continue
        remarks, unfolding, parameters, right = parts
        if parameters and parameters[-1] == "κs":
            parameters = parameters[:-1]
        if parameters and parameters[0] != "c":
            right = re.sub(BEFORE + re.escape(parameters[0]) + AFTER, "c", right)
            parameters[0] = "c"
        right = turned_answer(function, place, right, notes)
        if right.strip() not in ("search rules", "tt") or unfolding:
            if goal in clauses:
                right = as_record(goal, right, clauses[goal], notes)
            out.append("\n".join([*remarks, f"pub {goal} : goal.{goal}", *unfolding, f"{goal} {' '.join(parameters)} ={right}"]))
    return out


def loop_fields(function, loop, parameters, notes):
    """What each parameter of an invariant is as a field: a loop's variables as they were at its beginning, then again
    those that it changes."""
    variables = function.said["loops"][loop][1]
    changed = [v for v, c in zip(variables, function.said["changed"][loop]) if c]
    if len(parameters) != len(variables) + len(changed):
        notes.append(f"loop {function.said['loops'][loop][0][1]} params {parameters} vs {variables} {function.said['changed'][loop]}")
        return {p: f"l.initial.{p[:-1]}" if p.endswith("₀") else f"l.{p}" for p in parameters}
    first = {p: f"l.initial.{v}" if v in changed else f"l.{v}" for p, v in zip(parameters, variables)}
    then = {p: f"l.{v}" for p, v in zip(parameters[len(variables) :], changed)}
    return {p: field for p, field in (first | then).items() if p != "_"}


def invariants(function, kind, found, notes):
    """The text of Invariants.antt, for invariants or for measures."""
    out, loops = [], [l[0] for l in function.said["loops"]]
    for i, (name, type_of, block) in enumerate(found):
        old = re.match(r"tie\.(?:invariant|decreases)-(\S+)", type_of).group(1)
        loop = next((k for k, l in enumerate(loops) if alike(l[0]) == alike(old)), i if i < len(loops) else None)
        if loop is None:
            notes.append(f"no loop {old}")
            continue
        remarks, unfolding, parameters, right = parts_of(block, name)
        fields = loop_fields(function, loop, parameters, notes)
        right = re.sub(r"(?<![.\w'-])[^\s(){}\[\];,.λ]+", lambda m: fields.get(m.group(0), m.group(0)), right)
        new = f"{kind}-{loops[loop][1]}"
        out.append("\n".join([*remarks, f"abbrev pub {new} : goal.{new}", *unfolding, f"{new} l ={right}"]))
    return out


def converted(crate, path, said, text):
    """The new files by name, and notes."""
    function, notes = Function(said), []
    imports, helpers, goals, kept, measures = [], [], [], [], []
    for block in blocks(text):
        whole, head = "\n".join(block), signature(block)
        if block[0].startswith("use "):
            imports.append(whole)
        elif not head:
            if whole.strip() and not all(l.startswith("--") or not l.strip() for l in block):
                helpers.append(whole.strip("\n"))
        else:
            name, type_of = head.group(2), head.group(3)
            into = next((l for kind, l in (("Need-", goals), ("invariant", kept), ("decreases", measures)) if type_of.startswith(f"tie.{kind}")), None)
            if into is not None:
                into.append((name, type_of, block))
            elif not (name.endswith(("-spec", "_spec")) and "statement" in whole):
                helpers.append(whole.strip("\n"))
    imports = [l for l in imports if ".Statement.{" not in l and not l.rstrip().endswith(".Tie as tie")]
    answered = answers(function, goals, notes)
    loops = invariants(function, "invariant", kept, notes) + invariants(function, "decreases", measures, notes)
    at, out = f"Rattle.{crate}.proofs.{path}", {}
    if loops:
        out["Invariants.antt"] = [*imports_used(imports, "\n\n".join(loops)), f"use {at}.Given as goal"], loops
    if answered:
        body = helpers + answered
        out["Answers.antt"] = [*imports_used(imports, "\n\n".join(body)), f"use {at}.Goals as goal"], body
    elif helpers:
        notes.append("helpers dropped")
    notes += [f"helper with tie: {h.split(chr(10))[0][:80]}" for h in helpers if "tie." in h]
    return {name: "\n".join(head) + "\n\n" + "\n\n".join(body) + "\n" for name, (head, body) in out.items()}, notes


def turn_crate(root, names, crate, only):
    """The functions of a crate, or those whose path ends so."""
    said = json.load(open(os.path.join(names, crate, "names.json"), encoding="utf-8"))
    base = os.path.join(root, "crates", crate, "proofs")
    for folder, _, files in os.walk(base):
        path = os.path.relpath(folder, base).replace("/", ".")
        if "Proof.antt" not in files or only and not path.endswith(only):
            continue
        proof, key = os.path.join(folder, "Proof.antt"), f"Rattle-{crate}-proofs.{path}.Lts"
        text = open(proof, encoding="utf-8").read()
        if "tie." not in text or key not in said:
            print(crate, path, "RAW" if "tie." not in text else "NO NAMES")
            continue
        try:
            new, notes = converted(crate, path, said[key], text)
        except Exception as e:
            print(crate, path, "FAILED", repr(e))
            continue
        for name, turned in new.items():
            open(os.path.join(folder, name), "w", encoding="utf-8").write(turned)
        os.remove(proof)
        if not os.listdir(folder):
            os.rmdir(folder)
        for note in notes:
            print(crate, path, "NOTE", note)


def main():
    if len(sys.argv) < 4:
        raise SystemExit(__doc__)
    for crate in sys.argv[3:]:
        turn_crate(sys.argv[1], sys.argv[2], *crate.partition(":")[::2])


if __name__ == "__main__":
    main()
