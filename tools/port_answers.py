#!/usr/bin/env python3
"""Turns proofs that walk the code (Proof.antt) into Invariants.antt and Answers.antt, by the list of old and new names that
`rt check --generated NAMES --old-names` writes for a crate.

usage: port_answers.py NAMES/names.json CRATE [FUNCTION..]

A proof that it does not wholly understand is turned as far as it goes, with lines `-- LEFT`. It proves nothing: rt check decides.
"""

import glob
import json
import os
import re
import sys

PATH = re.compile(r"(?<![\w.·'-])([A-Za-zκ][\w'·-]*)((?:\.[\w'·-]+)+)")
plain = lambda it: re.sub(r"[-_·]+", "-", it)


def read(path):
    with open(path, encoding="utf-8") as it:
        return it.read()


def write(path, text):
    with open(path, "w", encoding="utf-8") as it:
        it.write(text)


def items(text):
    """The file's items: each a list of lines, the first of which stands at the margin."""
    them, now = [], []
    for line in text.split("\n"):
        if line[:1] not in (" ", "", "\t") and now and not continues(now, line):
            them.append(now)
            now = []
        now.append(line)
    if now:
        them.append(now)
    return [[line for line in it if line.strip()] for it in them if any(line.strip() for line in it)]


def name_of(line):
    it = re.match(r"(?:(?:abbrev|unfoldable|pub)\s+)*([^\s:]+)\s*:(?:\s|$)", line)
    return it and it.group(1)


def continues(now, line):
    heads = [it for it in now if it[:1] not in (" ", "")]
    if all(it.startswith("--") for it in heads):
        return not line.startswith("use ")
    name = next((name_of(it) for it in heads if name_of(it)), None)
    if name is None:
        return False
    return line.startswith("unfolding") or line.split(" ")[0] == name or (line.split(" ")[0:1] == [name])


def same_step(head, step):
    head, step = plain(head.replace("is_IsBody", "is_body")).lower(), plain(step).lower()
    return bool(step) and head in (step, step + "-lem")


class Names:
    is_cycle = False

    def __init__(self, entry):
        self.entry = entry
        self.places = {}
        for i, (old, parent, step, callee, fields) in enumerate(entry["places"]):
            self.places[old] = (i, parent, step, callee, dict(fields))
        self.goals = {}
        for (old, new), at in zip(entry["needs"], entry["asked_at"]):
            self.goals[plain(old)] = (new, at[0])

    def goal(self, old):
        old = plain(old)
        for was, now in (("holds", "init"), ("less", "smaller"), ("again", "preserved")):
            old = re.sub(rf"^loop-{was}(?=$|-)", "loop-" + now, old)
        for it in (old, re.sub(r"^(overflow|nonzero)-", "", old), re.sub("^slice-bounds-", "part-", old)):
            if it in self.goals:
                return self.goals[it]
        return None

    def with_step(self, place, head):
        """The place of that step: here, further back, or, where the older list of places was longer, further on towards the goal."""
        for start in (place, self.at):
            while start is not None:
                if same_step(head, self.places[start][2][0]):
                    return start
                start = self.places[start][1]
        return None

    def arm_of(self, place, step, rest):
        """The arm that a step before the goal has gone into, and the arm's field for it."""
        at = self.at
        while at is not None:
            arm = self.entry["arms"][self.places[at][0]]
            best = None
            for field, by, path in arm[2] if arm else []:
                if by == step and rest[: len(path)] == path and (best is None or len(path) > len(best[1])):
                    best = (field, path)
            if best and not (best[0].endswith("-own") and step.startswith("match") and rest[:1] != ["rest"]):
                return arm, best
            if at == place:
                return None, None
            at = self.places[at][1]
        return None, None

    def resolve(self, place, parts, root="c"):
        """(place, None) where the path only goes back, else (None, text)."""
        parts = list(parts)
        while parts and parts[0] == "before":
            # today's list of places can be shorter than the older one
            place = self.places[place][1] or place
            parts.pop(0)
        if not parts:
            return place, None
        head, rest = parts[0], parts[1:]
        place = self.with_step(place, head) or place
        i, _, step, callee, fields = self.places[place]
        if same_step(head, step[0]):
            # a variable whose type tells something
            if rest and rest[0] == "given":
                for var, by in self.entry["typed"][i]:
                    if by == step[0]:
                        return None, ".".join([root, "type_inv", var] + rest[1:])
            arm, best = self.arm_of(place, step[0], rest)
            if arm:
                if best and best[0] == "ensures":
                    above = self.places[self.places[place][1]]
                    while above[3] is None and above[1]:
                        above = self.places[above[1]]
                    named = clauses(above[3], "ensures")
                    if named:
                        return None, by_name((".".join([root, arm[0], "ensures"]), rest[len(best[1]) :]), named)
                if best:
                    return None, ".".join([root, arm[0], best[0]] + rest[len(best[1]) :])
            if rest and rest[0] in fields:
                rest[0] = fields[rest[0]]
            named = rest and rest[0] == "ensures" and clauses(callee, "ensures")
            if named:
                return None, by_name((".".join([root, step[1], "ensures"]), rest[1:]), named)
            return None, ".".join([root, step[1]] + rest)
        head = parts[0] = head.replace("-", "_") if head in ("well-formed", "type-inv") else head
        if head in ("args", "requires", "ranges", "lifetimes", "well_formed", "utf8"):
            if self.is_cycle and head == "requires":
                # the measure's value, and then what is asked
                if parts[1:] == ["0"]:
                    return None, root + ".decreases"
                if parts[1:2] != ["1"]:
                    raise KeyError(".".join(parts))
                parts.pop(1)
            named = head == "requires" and clauses(self.function, "requires")
            if named:
                return None, by_name((root + ".requires", parts[1:]), named)
            return None, ".".join([root] + parts)
        raise KeyError(head + " at " + place + ", which has " + step[0])


def clauses_of(crates):
    """For each function, by crate and by its type and name, the names of its clauses of each kind, where they have names."""
    table = {}
    for path in glob.glob(os.path.join(crates, "*", "src", "**", "*.rt"), recursive=True):
        crate = os.path.relpath(path, crates).split(os.sep)[0]
        kind, function = None, None
        for line in read(path).split("\n"):
            it = re.match(r"impl(?:<[^>]*>)? (\w+)", line)
            if it:
                kind = it.group(1)
            elif line == "}":
                kind = None
            it = re.match(r"\s*(?:pub(?:\([^)]*\))? )?(?:unsafe )?(?:extern \"C\" )?fn (\w+)", line)
            if it:
                function = (crate, (kind + "::" if kind else "") + it.group(1))
                table[function] = {"requires": [], "ensures": []}
            it = re.match(r"\s+(requires|ensures)\s+(?:(\w+)\s+)?\{", line)
            if it and function:
                table[function][it.group(1)].append(it.group(2))
    return table


CLAUSES = {}


def clauses(callee, kind):
    """The clauses' names, or None where there is one with no name."""
    if not callee:
        return None
    parts = callee.split("::")
    for name in ("::".join(parts[-2:]), parts[-1]):
        them = CLAUSES.get((parts[0], name))
        if them is not None:
            return them[kind] if all(them[kind]) and them[kind] else None
    return None


def by_name(path, names):
    """The path of clauses that were joined by × : `x.ensures.1.0` as `x.ensures.NAME`, and `x.ensures` as all of them."""
    head, rest = path
    i = 0
    while rest and i < len(names) - 1 and rest[0] == "1":
        rest.pop(0)
        i += 1
    if i < len(names) - 1 and rest and rest[0] == "0":
        return head + "." + ".".join([names[i]] + rest[1:])
    if i == len(names) - 1:
        return head + "." + ".".join([names[i]] + rest)
    if rest:
        raise KeyError("clause " + ".".join(rest))
    made = head + "." + names[-1]
    for name in reversed(names[i:-1]):
        made = f"({head}.{name}, {made})"
    return made


LET = re.compile(r"let ([\w'·-]+) = ([\w'·-]+(?:\.[\w'·-]+)*) in\s*")


def body_of(text, names, place, root="c", left=None):
    names.at = place
    aliases = {root: place}
    known = {}

    def one(it):
        head, tail = it.group(1), it.group(2)
        if head in known:
            parts, paths = tail[1:].split("."), list(known[head])
            while len(paths) > 1 and parts[:1] == ["1"]:
                parts.pop(0)
                paths.pop(0)
            if len(paths) > 1 and parts[:1] == ["0"]:
                return ".".join([paths[0]] + parts[1:])
            if len(paths) == 1:
                return ".".join([paths[0]] + parts)
            left.append(it.group())
            return it.group()
        if head not in aliases:
            return it.group()
        try:
            at, path = names.resolve(aliases[head], tail[1:].split("."))
        except (KeyError, TypeError) as e:
            left.append(f"{it.group()}: {e}")
            return it.group()
        if path is None:
            left.append(f"{it.group()} is a place")
            return it.group()
        return path

    out, at = "", 0
    while True:
        it = LET.search(text, at)
        if not it:
            break
        head, *tail = it.group(2).split(".")
        if head in aliases:
            try:
                p, path = names.resolve(aliases[head], tail)
            except (KeyError, TypeError) as e:
                p, path = None, None
                left.append(f"{it.group(2)}: {e}")
            if p is not None:
                out += PATH.sub(one, text[at : it.start()])
                aliases[it.group(1)] = p
                at = it.end()
                continue
            if path and path.startswith("("):
                # all the clauses of a call: each is cited by its name
                out += PATH.sub(one, text[at : it.start()])
                known[it.group(1)] = re.findall(r"[\w'·.-]+", path)
                at = it.end()
                continue
        out += PATH.sub(one, text[at : it.end()])
        at = it.end()
    out += PATH.sub(one, text[at:])
    # a place that is passed on whole: the record of all that is known
    for alias in aliases:
        if alias != root:
            out = re.sub(r"(?<![\w.'·-])" + re.escape(alias) + r"(?![\w'·.-])", root, out)
    out = re.sub(r"\(not-true _ (c\.[\w'·.-]+)\.true-raw\)", r"\1.true", out)
    out = re.sub(r", c\.(?:[\w'·.-]+-own\.[\w.-]+|in_default-1\.rest)(?=[,)])", "", out).replace("omega (arith)", "omega arith").replace("(omega arith)", "(omega arith)")
    out = re.sub(r"\(not-false _ (c\.[\w'·.-]+)\.false-raw\)", r"\1.false", out)
    return out


def asks(names, old):
    """The names of the clauses that a goal asks, where they have names."""
    if re.match(r"returns(-\d+)?$", old):
        return clauses(names.function, "ensures")
    it = re.match(r"(.*)-requires(?:-(\d+))?$", old)
    if it:
        for _, _, step, callee, _ in names.places.values():
            if callee and plain(step[0]) == it.group(1) + (it.group(2) or ""):
                return clauses(callee, "requires")
    return None


def parts_of(text):
    """The two parts of a pair that the text is, or None."""
    text = text.strip()
    if not (text.startswith("(") and text.endswith(")")):
        return None
    depth, commas = 0, []
    for i, it in enumerate(text):
        depth += it in "([{"
        depth -= it in ")]}"
        if depth == 0 and i < len(text) - 1:
            return None
        if depth == 1 and it == ",":
            commas.append(i)
    if not commas:
        return None
    parts = [text[a + 1 : b].strip() for a, b in zip([0] + commas, commas + [len(text) - 1])]
    return parts if parts[-1] else parts[:-1]


def in_record(text, names):
    if len(names) == 1:
        return f"record {{ {names[0]} = {text.strip()} }}"
    lets = ""
    while True:
        it = re.match(r"\s*let [\w'·-]+ (?:: .*?)?= .*? in\s+(?=\(|let |[a-z])", text, re.S)
        if not it or parts_of(text):
            break
        lets, text = lets + it.group(), text[it.end() :]
    found = []
    rest = text
    while len(found) < len(names) - 1:
        parts = parts_of(rest)
        if not parts:
            break
        found += parts[:-1]
        rest = parts[-1]
    found.append(rest.strip())
    if len(found) == len(names):
        return lets + "record { " + "; ".join(f"{n} = {t}" for n, t in zip(names, found)) + " }"
    if re.match(r"\s*(absurd|elim)\b", text):
        return lets + text
    # the last part is of all the clauses that are left
    done, left = len(found) - 1, len(names) - len(found) + 1
    path = lambda i: "rest" + ".1" * i + (".0" if i < left - 1 else "")
    terms = found[:-1] + [path(i) for i in range(left)]
    return lets + f"let rest = {found[-1].strip()} in\n    record {{ " + "; ".join(f"{n} = {t}" for n, t in zip(names, terms)) + " }"


def arguments(text):
    """The arguments at the outermost level of a text: words and brackets."""
    found, depth, start = [], 0, None
    for i, it in enumerate(text):
        if depth == 0 and not it.isspace() and start is None:
            start = i
        depth += it in "([{"
        depth -= it in ")]}"
        if depth == 0 and start is not None and (i + 1 == len(text) or text[i + 1].isspace() or text[i + 1] in ")("):
            found.append(text[start : i + 1])
            start = None
    return found


def inline_answers(body, entry):
    """Answers that stand among the arguments of `tie.spec`, each with the goal's names."""
    it = re.search(r"\(tie\.spec\b(.*)\)", body, re.S)
    if not it:
        return []
    found = arguments(it.group(1))
    found = found[2 * len(entry["loops"]) :]
    real = [(i, a) for i, a in enumerate(found) if re.match(r"\(λ c(?: κs)?\. ", a) and not re.match(r"\(λ c(?: κs)?\. search rules\)", a)]
    if not real:
        return []
    if len(found) != len(entry["needs"]):
        return None
    return [(entry["needs"][i], re.sub(r"^\(λ c(?: κs)?\. (.*)\)$", r"\1", a, flags=re.S)) for i, a in real]


def loop_binders(entry, old):
    for (was, new), variables in entry["loops"]:
        if plain(was) == plain(old):
            i = [plain(x[0][0]) for x in entry["loops"]].index(plain(old))
            changed = entry["changed"][i]
            first = [("l.initial." if c else "l.") + v for v, c in zip(variables, changed)]
            return new, first + ["l." + v for v, c in zip(variables, changed) if c]
    return None, None


TOK = re.compile(r"\"(?:[^\"\\]|\\.)*\"|[^\s(){}.;,@\"«»\[\]\\]+|\.|\s+|[(){};,@«»\[\]\\]")


def substitute(text, table):
    out, before = [], ""
    tokens = TOK.findall(text)
    for i, it in enumerate(tokens):
        is_field = "".join(tokens[i + 1 : i + 3]).strip() == "="
        if it in table and before != "." and not is_field:
            out.append(table[it])
        else:
            out.append(it)
        before = it
    return "".join(out)


def declaration(lines, name):
    """The type of a declaration, its `unfolding` lines, and its definition; no type where the lines declare nothing."""
    typed, defined = list(lines), []
    for i, it in enumerate(lines):
        if i and (it.split(" ")[0] == name or it.startswith("unfolding")):
            typed, defined = lines[:i], lines[i:]
            break
    signature = re.sub(r"\s+", " ", " ".join(typed))
    k = 0
    if defined and defined[0].startswith("unfolding"):
        k = 1
        while k < len(defined) and defined[k].startswith(" "):
            k += 1
    return signature.split(" : ", 1)[1] if " : " in signature else "", defined[:k], "\n".join(defined[k:])


def turn(path, entry, crate, function):
    names = Names(entry)
    names.function = crate + "::" + function.replace(".", "::")
    text = read(path)
    uses, invariants, answers, left = [], [], [], []
    for lines in items(text):
        comments = [it for it in lines if it.startswith("--")]
        lines = [it for it in lines if not it.startswith("--")]
        if not lines:
            answers.append("\n".join(comments))
            continue
        head = lines[0]
        if head.startswith("use "):
            if re.search(r"\.(Statement|Tie|Lts[\w-]*)\b|borrow\.Author\.(Rules|Needs)\.", head):
                if "Lts" in head:
                    left.append(head)
                continue
            uses.append(" ".join(it.strip() for it in lines))
            continue
        name = name_of(head)
        whole = "\n".join(lines)
        type_text, unfolding, body = declaration(lines, name)
        m = re.match(r"tie\.(invariant|decreases)-?(\S*)$", type_text.strip())
        if m:
            it = re.match(r"(\S+)\s*((?:[^\s=]+\s+)*)=\s*", body)
            binders = it.group(2).split()
            new, those = loop_binders(entry, m.group(2))
            if new is None or len(those) != len(binders):
                left.append(f"{whole}  -- binders {those}")
                continue
            made = substitute(body[it.end() :], {b: t for b, t in zip(binders, those) if b != "_"})
            invariants.append("\n".join(comments + [f"abbrev pub {m.group(1)}-{new} : goal.{m.group(1)}-{new}"] + unfolding + [f"{m.group(1)}-{new} l = {made}"]))
            continue
        m = re.match(r"tie\.Need-(\S+)", type_text.strip())
        if m:
            goal = names.goal(m.group(1))
            if goal is None:
                left.append(f"-- no goal {m.group(1)}:\n{whole}")
                continue
            new, place = goal
            it = re.match(r"(\S+)\s*((?:[^\s=]+\s+)*)=\s*", body)
            binders = [b for b in it.group(2).split()]
            root = next((b for b in binders if b != "κs"), "c")
            made = body_of(body[it.end() :], names, place, root, left)
            if made.strip() == "search rules" and not unfolding:
                continue
            asked = asks(names, plain(m.group(1)))
            if asked:
                made = in_record(made, asked)
            nl = "\n    " if "\n" in made else " "
            answers.append("\n".join(comments + [f"pub {new} : goal.{new}"] + unfolding + [f"{new} {root} ={nl}{made}"]))
            continue
        if re.search(r"-spec$|_spec$", name or ""):
            given = inline_answers(body, entry)
            if given is None:
                left.append("inline answers: another number")
                continue
            for (old, new), text_of in given:
                made = body_of(text_of, names, names.goal(old)[1], "c", left)
                asked = asks(names, plain(old))
                made = in_record(made, asked) if asked else made
                answers.append("\n".join([f"pub {new} : goal.{new}"] + unfolding + [f"{new} c = {made}"]))
            continue
        answers.append("\n".join(comments + lines))
        if "tie." in whole or "Lts" in whole:
            left.append(f"helper {name}")
    folder = os.path.dirname(path)
    module = f"Rattle.{crate}.proofs.{function}"
    if invariants:
        write(os.path.join(folder, "Invariants.antt"), "\n".join(uses + [f"use {module}.Given as goal"]) + "\n\n" + "\n\n".join(invariants) + "\n")
    real = [a for a in answers if a.strip()]
    if real or left:
        write(
            os.path.join(folder, "Answers.antt"),
            "\n".join(uses + [f"use borrow.Author.Rules.{{rules}}", f"use {module}.Goals as goal"]) + "\n\n" + "\n\n".join(real) + "\n"
            + "".join("-- LEFT " + it.replace("\n", "\n-- ") + "\n" for it in left),
        )
    os.remove(path)
    if left:
        print(function, *left, sep="\n   ")


# what falls from call to call: the length of what the function is called at
MEASURES = {"walk": "l.end - l.start", "attribute": "l.f.next - l.f.start", "graph": "l.f.next - l.f.start", "node": "l.f.next - l.f.start"}


def merged(uses):
    """One line for each module that names are taken from."""
    table, out = {}, []
    for it in uses:
        m = re.match(r"use (\S+)\.\{(.*)\}$", it)
        if not m:
            out.append(it)
            continue
        if m.group(1) not in table:
            table[m.group(1)] = []
            out.append(m.group(1))
        table[m.group(1)] += [n for n in re.split(r",\s*", m.group(2)) if n not in table[m.group(1)]]
    return [f"use {it}.{{{', '.join(table[it])}}}" if it in table else it for it in out]


def turn_cycle(path, found, crate, function):
    """A cycle's proof: its goals are those of each of its functions, and helpers over what is known at a place are written out."""
    folder = os.path.dirname(path)
    texts = [read(it) for it in sorted(glob.glob(os.path.join(folder, "Proof", "*.antt")))] + [read(path)]
    members = sorted(key.rsplit(".Lts-", 1)[1] for key in found if key.startswith(f"Rattle-{crate}-proofs.{function}.Lts-"))
    several = len(members) > 1
    uses, invariants, answers, left, helpers = [], [], [], [], {}
    module = ".".join(function.split(".")[:-1])
    for lines in [it for text in texts for it in items(text)]:
        comments = [it for it in lines if it.startswith("--")]
        lines = [it for it in lines if not it.startswith("--")]
        if not lines or re.match(r"mod \w+$|use \w+\.\*$", lines[0]):
            continue
        head = lines[0]
        if head.startswith("use "):
            one = " ".join(it.strip() for it in lines)
            if not re.search(r"\.(Statement|Tie|Reads|Kinds|Lts[\w-]*)\b|borrow\.Author\.(Rules|Needs)\.|borrow\.Fn\.|\.\+\w+\.\{|\.Proof\.", head) and one not in uses:
                uses.append(one)
            continue
        name = name_of(head)
        whole = "\n".join(lines)
        type_text, unfolding, body = declaration(lines, name)
        if not type_text:
            continue
        it = re.match(r"(\S+)\s*((?:[^\s=]+\s+)*)=\s*", body)
        binders, rest = it.group(2).split(), body[it.end() :]
        m = re.match(r"([\w-]+)-lts\.(invariant|decreases)-?(\S*)$", type_text.strip())
        if m:
            entry = found[f"Rattle-{crate}-proofs.{function}.Lts-{m.group(1).replace('-', '_')}"]
            new, those = loop_binders(entry, m.group(3))
            made = substitute(rest, {b: t for b, t in zip(binders, those) if b != "_"})
            new = (m.group(1) + "-" if several else "") + new
            invariants.append("\n".join([f"abbrev pub {m.group(2)}-{new} : goal.{m.group(2)}-{new}"] + unfolding + [f"{m.group(2)}-{new} l = {made}"]))
            continue
        m = re.match(r"\(t : ℕ\) → ([\w-]+)-lts\.Need-(\S+) ", type_text)
        if m:
            member = m.group(1).replace("-", "_")
            names = Names(found[f"Rattle-{crate}-proofs.{function}.Lts-{member}"])
            names.is_cycle = True
            names.function = f"{crate}::{module.replace('.', '::')}::{member}"
            goal = names.goal(m.group(2))
            if goal is None:
                left.append(f"no goal {m.group(2)}: {whole}")
                continue
            new, place = goal
            for _ in range(4):
                rest = re.sub(r"\((\S+) t (c\d*(?:\.before)*)\)", lambda it: inlined(helpers, it, names, place, left) if it.group(1) in helpers else it.group(), rest)
                rest = re.sub(r"(?<=\()(\S+) t (c\d*(?:\.before)*)(?=\.)", lambda it: inlined(helpers, it, names, place, left) if it.group(1) in helpers else it.group(), rest)
            made = body_of(rest, names, place, "c", left).replace("written.", "c.")
            if made.strip() == "search rules" and not unfolding:
                continue
            asked = asks(names, plain(m.group(2)))
            calls_cycle = re.match(r"([\w-]+?)-requires(-\d+)?$", m.group(2)) and any(
                callee and plain(step[0]) == plain(re.sub(r"-requires(-(\d+))?$", r"\2", m.group(2))) and callee.split("::")[-1] in members
                for _, _, step, callee, _ in names.places.values()
            )
            # what a call within the cycle asks is a pair of the measure's fall and of all clauses, with no names
            if asked and not calls_cycle:
                made = in_record(made, asked)
            new = (m.group(1) + "-" if several else "") + new
            nl = "\n    " if "\n" in made else " "
            answers.append("\n".join(comments + [f"pub {new} : goal.{new}"] + unfolding + [f"{new} t c ={nl}{made}"]))
            continue
        if re.search(r"-spec$|_spec$|-claims$|[-_](at|below)$|^μ-", name or ""):
            if name.startswith("μ-"):
                it = name[2:]
                invariants.insert(0, f"abbrev pub decreases-{it} : goal.decreases-{it}\ndecreases-{it} l = {MEASURES[it]}")
            continue
        if "-lts." in type_text:
            helpers[name] = rest
            continue
        answers.append("\n".join(comments + lines))
    given = f"Rattle.{crate}.proofs.{function}"
    uses = merged(uses)
    write(os.path.join(folder, "Invariants.antt"), "\n".join(uses + [f"use {given}.Given as goal"]) + "\n\n" + "\n\n".join(invariants) + "\n")
    write(os.path.join(folder, "Answers.antt"), "\n".join(uses + [f"use {given}.Goals as goal"]) + "\n\n" + "\n\n".join(answers) + "\n" + "".join("-- LEFT " + it.replace("\n", "\n-- ") + "\n" for it in left))
    for it in [path] + glob.glob(os.path.join(folder, "Proof", "*.antt")):
        os.remove(it)
    if left:
        print(function, *left, sep="\n   ")


def inlined(helpers, it, names, place, left):
    made = body_of(helpers[it.group(1)], names, place, "c", left)
    return "(" + re.sub(r"(?<![\w.'·-])c\.", "written.", made) + ")"


def main():
    found = json.load(open(sys.argv[1]))
    where = sys.argv[2]
    CLAUSES.update(clauses_of(os.path.join(where, "..")))
    crate = os.path.basename(os.path.abspath(where))
    for path in sorted(glob.glob(os.path.join(where, "proofs", "**", "Proof.antt"), recursive=True)):
        function = os.path.relpath(os.path.dirname(path), os.path.join(where, "proofs")).replace("/", ".")
        if sys.argv[3:] and function not in sys.argv[3:]:
            continue
        if function.rsplit(".", 1)[-1].startswith("+") and "/Proof/" not in path:
            turn_cycle(path, found, crate, function)
            continue
        entry = found.get(f"Rattle-{crate}-proofs.{function}.Lts")
        if entry is None:
            print("no names for", function)
            continue
        turn(path, entry, crate, function)


if __name__ == "__main__":
    main()
