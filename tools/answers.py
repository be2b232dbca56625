#!/usr/bin/env python3
"""Turns walks of an older Rattle (proofs/F/Proof.antt over Tie) into Invariants.antt and Answers.antt.

usage: python3 tools/answers.py NAMES CRATE [FUNCTION..]

NAMES is names.json of the crate CRATE (a folder), which `rt check --generated DIR --old-names` writes; each FUNCTION a
path below proofs/. It rewrites the files in place and prints what is left to do by hand. It proves nothing.
"""

import json
import os
import re
import sys

ID = r"[A-Za-z_\u03ba\u03bc][\w'\-\u2080-\u2089\u03ba\u03bc]*"
CHAIN = re.compile(r"(?<![\w'.\-\u2080-\u2089])(" + ID + r")((?:\.[\w'\-]+)+)")


def plain(name):
    return name.replace("-", "_")


def closing(text, at):
    depth = 0
    for i in range(at, len(text)):
        if text[i] in "([{":
            depth += 1
        elif text[i] in ")]}":
            depth -= 1
            if depth == 0:
                return i
    return len(text)


def opening(text, at):
    depth = 0
    for i in range(at, -1, -1):
        if text[i] in ")]}":
            depth += 1
        elif text[i] in "([{":
            depth -= 1
            if depth == 0:
                return i
    return 0


def at_depth(text, mark):
    """The places of a mark outside every bracket."""
    found, depth, i = [], 0, 0
    while i < len(text):
        if text[i] in "([{":
            depth += 1
        elif text[i] in ")]}":
            depth -= 1
        elif depth == 0 and text.startswith(mark, i):
            found.append(i)
        i += 1
    return found


def split_at(text, mark):
    places = at_depth(text, mark)
    parts, last = [], 0
    for p in places:
        parts.append(text[last:p])
        last = p + len(mark)
    return parts + [text[last:]]


def after_lets(body):
    """The lets at the head of a body, and the rest."""
    at = 0
    while True:
        m = re.compile(r"\s*let\s").match(body, at)
        if not m:
            return body[:at], body[at:]
        depth, lets, i = 0, 1, m.end()
        while i < len(body):
            ch = body[i]
            if ch in "([{":
                depth += 1
            elif ch in ")]}":
                depth -= 1
            elif depth == 0:
                w = re.compile(r"(?<![\w'.\-])(let|in)(?![\w'\-])").match(body, i)
                if w and (i == 0 or not re.match(r"[\w'.\-]", body[i - 1])):
                    lets += 1 if w.group(1) == "let" else -1
                    if lets == 0:
                        i = w.end()
                        break
                    i = w.end()
                    continue
            i += 1
        else:
            return body[:at], body[at:]
        at = i


class Function:
    def __init__(self, facts, crate, path):
        self.crate, self.path = crate, path
        self.facts = facts
        self.parent, self.field, self.new_place, self.clauses, self.callee, self.typed = {}, {}, {}, {}, {}, {}
        for i, (name, parent, field, callee, _) in enumerate(facts["places"]):
            self.parent[plain(name)] = parent and plain(parent)
            self.field[plain(name)] = (plain(field[0]), field[1])
            self.new_place[plain(name)] = facts["places_by_name"][i]
            self.clauses[plain(name)] = facts["clauses"][i]
            self.callee[plain(name)] = callee
            self.typed[plain(name)] = bool(facts["typed"][i])
        self.of_lts = {facts["places_by_name"][i]: p[0] for i, p in enumerate(facts["places"])}
        self.needs, self.need_at = {}, {}
        for (old, new), (place, _) in zip(facts["needs"], facts["asked_at"]):
            key = plain(old)
            self.needs[key] = new
            self.need_at[key] = plain(place)
        self.settled = {plain(s) for s in facts["settled"]}
        self.args = {}
        for pair in facts["args"]:
            if len(pair) == 2 and pair[0].startswith((".args ", ".ranges ")):
                self.args[pair[0].split(".")[-1]] = pair[1].split(".")[-1]
        self.told = {p[0][1:]: p[1][1:] for p in facts["args"] if p[0].startswith((".told", ".fits"))}
        self.helpers, self.params, self.parts, self.in_module = {}, {}, {}, {}
        self.left = []
        self.used_places = set()
        self.decl_names = {}

    def need(self, word):
        key = plain(word)
        for k in (key, re.sub(r"^overflow_", "", key), re.sub(r"^nonzero_", "", key), re.sub(r"^slice_bounds_", "part_", key)):
            if k in self.needs:
                return k
        return None

    def requires(self, segs):
        """The names of the clauses in place of their numbers."""
        pre = self.facts.get("pre")
        if not pre:
            return ["requires"] + segs
        fields = pre["fields"]
        if len(fields) == 1:
            if segs[:1] == [fields[0]]:
                return ["requires"] + segs
            return ["requires", fields[0]] + segs
        if segs and segs[0] in fields:
            return ["requires"] + segs
        n = 0
        while n < len(fields) - 1 and n < len(segs) and segs[n] == "1":
            n += 1
        if n == len(fields) - 1:
            return ["requires", fields[n]] + segs[n:]
        if n < len(segs) and segs[n] == "0":
            return ["requires", fields[n]] + segs[n + 1:]
        self.left.append("requires." + ".".join(segs))
        return ["requires"] + segs

    def param(self, callee, segs):
        params = self.facts["params"].get(callee) or []
        n = 0
        while n < len(segs) and segs[n] == "1":
            n += 1
        if n < len(segs) and segs[n] == "0" and n < len(params):
            return [params[n]] + segs[n + 1:]
        self.left.append(f"parameter of {callee}: " + ".".join(segs))
        return segs

    def segments(self, place, segs):
        """The names of a path, without its steps back, from a context at a place."""
        word, rest = segs[0], segs[1:]
        if word in ("args", "ranges"):
            if rest:
                rest = [self.args.get(rest[0], rest[0].replace("-", "_"))] + rest[1:]
            return [word] + rest
        if word in ("pre", "requires"):
            return self.requires(rest)
        if word in self.told:
            return [self.told[word]] + rest
        if word in ("well-formed", "good"):
            return ["well_formed"] + rest
        at = place
        while at is not None:
            old, new = self.field[at]
            if old and old == plain(word):
                return [new] + self.fields_of(at, rest)
            at = self.parent[at]
        for at in self.field:
            old, new = self.field[at]
            if old and old == plain(word):
                self.left.append(f"step {word} is not above its place {place}")
                return [new] + self.fields_of(at, rest)
        if word not in ("lifetimes", "blocks", "type_inv"):
            self.left.append(f"no step {word} at {place}")
        return [word] + rest

    def fields_of(self, at, rest):
        if not rest:
            return rest
        if rest[0] == "ensures":
            clause = self.clauses.get(at)
            if clause and len(clause["fields"]) == 1 and rest[1:2] != clause["fields"]:
                return ["ensures", clause["fields"][0]] + rest[1:]
            if clause and len(clause["fields"]) > 1 and rest[1:2] in (["0"], ["1"]):
                self.left.append("ensures." + ".".join(rest[1:]))
            return rest
        if rest[0] in ("new", "last", "auto") and self.callee.get(at):
            return ["auto" if rest[0] == "auto" else "new"] + self.param(self.callee[at], rest[1:])
        if rest[0] == "taken":
            return ["true"] + rest[1:]
        if rest[0] == "left":
            return ["false"] + rest[1:]
        if rest[0] == "inv":
            return ["invariant"] + rest[1:]
        if at.startswith("At_"):
            return [rest[0].replace("-", "_") if rest[0] not in ("type-inv",) else rest[0]] + rest[1:]
        return rest

    def context(self, text, at, env):
        """Reads a context expression at a place of a text: its end, its root, and its place where a helper says it; or None."""
        depth, i = 0, at
        opened = []
        while i < len(text) and text[i] == "(":
            opened.append(i)
            i += 1
        m = re.compile(ID).match(text, i)
        if not m:
            return None
        word = m.group(0)
        if word in env:
            root, place = env[word]
            i = m.end()
        elif word in self.helpers and self.params.get(word):
            k = m.end()
            while k < len(text) and text[k] in " \n":
                k += 1
            inner = self.context(text, k, env)
            if not inner:
                return None
            i, root, place = inner[0], inner[1], self.helpers[word]
        else:
            return None
        b = re.compile(r"(?:\.before(?![\w'\-]))+").match(text, i)
        if b:
            i, place = b.end(), None
        for _ in opened:
            if i < len(text) and text[i] == ")":
                i += 1
            else:
                return None
            b = re.compile(r"(?:\.before(?![\w'\-]))+").match(text, i)
            if b:
                i, place = b.end(), None
        return i, root, place

    def steps(self, root, place):
        """A root's place that lies above, as steps back."""
        name, at, wrapped = root
        n = 1 if wrapped else 0
        while at is not None and at != place:
            at = self.parent[at]
            n += 1
        if at is None:
            self.left.append(f"{place} is not above the place of {name}")
            return name + ".before"
        return name + ".before" * n

    def asked_place(self, text, at):
        """The place that a helper asks for as the argument at a place of a text, or None."""
        i, k = at, 0
        while i > 0:
            while i > 0 and text[i - 1] in " \n":
                i -= 1
            if i == 0 or text[i - 1] in "=([{,;\u2192\u2261\u2219.":
                return None
            if text[i - 1] in ")]}":
                j = opening(text, i - 1)
                word = text[j:i]
            else:
                m = re.search(r"[^\s()\[\]{},;]+$", text[:i])
                if not m:
                    return None
                j, word = m.start(), m.group(0)
                # a projection of something in brackets
                if word.startswith(".") and j > 0 and text[j - 1] in ")]}":
                    j = opening(text, j - 1)
            if word in self.params:
                return self.params[word][k] if k < len(self.params[word]) else None
            k += 1
            i = j
        return None

    def turned(self, body, env, result=None):
        """A text with its contexts turned. env: a name to its root (name, place, wrapped) and its place; result: its own place."""
        env = dict(env)
        names = {old: new for old, new in self.decl_names.items() if old != new}
        if names:
            cited = re.compile(r"(?<![\w'.\-])(" + "|".join(map(re.escape, sorted(names, key=len, reverse=True))) + r")(?![\w'\-])(?= )")
            body = cited.sub(lambda m: names[m.group(1)], body)
        out, i = "", 0
        word = re.compile(ID)
        while i < len(body):
            if body.startswith("--", i):
                j = body.find("\n", i)
                j = len(body) if j < 0 else j
                out += body[i:j]
                i = j
                continue
            before = out[-1:] if out else ""
            let = re.compile(r"let\s+(" + ID + r")\s*=\s*").match(body, i) if not re.match(r"[\w'.\-]", before) else None
            if let:
                got = self.context(body, let.end(), env)
                if got:
                    end = re.compile(r"\s+in(?![\w'\-])\s?").match(body, got[0])
                    if end:
                        env[let.group(1)] = (got[1], got[2])
                        i = end.end()
                        if out.endswith("\n    ") or out.endswith("\n"):
                            m = re.compile(r"\s*").match(body, i)
                            i = m.end()
                        continue
                    part = re.compile(r"((?:\.[\w'\-]+)+)\s+in(?![\w'\-])").match(body, got[0])
                    if part:
                        segs = part.group(1)[1:].split(".")
                        last = segs[-1]
                        if last == "args" and len(segs) == 1:
                            self.parts[let.group(1)] = "(args)"
                        elif last in ("pre", "requires") and len(segs) == 1:
                            self.parts[let.group(1)] = "(requires)"
                        elif len(segs) == 1:
                            at = got[1][1]
                            while at is not None and self.field[at][0] != plain(last):
                                at = self.parent[at]
                            if at is not None:
                                self.parts[let.group(1)] = "(step)" + at
                else:
                    self.parts.pop(let.group(1), None)
                    env.pop(let.group(1), None)
                out += body[i:let.end()]
                i = let.end()
                continue
            if not re.match(r"[\w'.\-\u2080-\u2089]", before) and (body[i] == "(" or word.match(body, i)):
                got = self.context(body, i, env)
                if got:
                    end, root, place = got
                    m = re.compile(r"((?:\.[\w'\-]+)+)").match(body, end)
                    if m:
                        segs = self.segments(root[1], m.group(1)[1:].split("."))
                        path = root[0] + "." + ".".join(segs)
                        if segs[0].startswith("if-not-") and segs[1:] in (["true"], ["false"]):
                            path = "(ap not " + path + ")"
                        out += path
                        i = m.end()
                        continue
                    rest = re.compile(r"\s*[=:\u21a6]").match(body, end)
                    if not rest:
                        want = place or self.asked_place(out, len(out)) or (result if not out.strip() or out.rstrip().endswith("=") else None)
                        if want:
                            out += self.steps(root, want)
                            i = end
                            continue
                        if body[i:end] != root[0]:
                            self.left.append("a context is passed on: " + out[-30:].replace("\n", " ") + "<" + body[i:end] + ">")
                        out += root[0] if ".before" not in body[i:end] else body[i:end]
                        i = end
                        continue
            m = word.match(body, i)
            if m and not re.match(r"[\w'.\-]", before):
                w = m.group(0)
                c = re.compile(r"((?:\.[\w'\-]+)+)").match(body, m.end())
                if c and w in self.parts and w not in env:
                    segs, kind = c.group(1)[1:].split("."), self.parts[w]
                    if kind == "(args)":
                        segs = [self.args.get(segs[0], segs[0].replace("-", "_"))] + segs[1:]
                    elif kind == "(requires)":
                        segs = self.requires(segs)[1:]
                    else:
                        segs = self.fields_of(kind[6:], segs)
                    out += w + "." + ".".join(segs)
                    i = c.end()
                    continue
                out += w
                i = m.end()
                continue
            out += body[i]
            i += 1
        return out

    def types(self, text):
        """Names of places in types, and the goals."""
        def place(m):
            key = plain(m.group(1))
            if key in self.new_place:
                self.used_places.add(self.new_place[key])
                return self.new_place[key]
            self.left.append("no place " + m.group(1))
            return m.group(0)
        text = re.sub(r"tie\.((?:Start|At|In|After|Then|Else|Joined|Both)[\w'\-]*)((?:\s+(?:invariant|decreases|Inv|\u03bc)-[\w'\-]+)*)", place, text)
        return re.sub(r"\((" + "|".join(map(re.escape, sorted(self.used_places, key=len, reverse=True))) + r")\)", r"\1", text) if self.used_places else text


def loops(function):
    found = {}
    for ((old, new), names), changed in zip(function.facts["loops"], function.facts["changed"]):
        found[plain(old)] = (new, names, changed)
    return found


def invariant(function, block, left):
    m = re.match(r"(?s)(.*?)abbrev (?:pub )?(invariant|decreases)-([\w'\-]+) : tie\.\S+\n(?:\2-\3)((?:\s+\S+)*?)\s*=(?=\s)(.*)", block)
    if not m:
        left.append("an invariant is not read: " + block[:60])
        return block
    comment, kind, loop, params, body = m.groups()
    known = loops(function)
    if plain(loop) not in known:
        left.append("no loop " + loop)
        return block
    new, names, changed = known[plain(loop)]
    params = params.split()
    want = [(n, True) if c else (n, None) for n, c in zip(names, changed)] + [(n, False) for n, c in zip(names, changed) if c]
    if len(params) != len(want):
        left.append(f"loop {loop}: {len(params)} parameters, {len(want)} variables: {params} {names} {changed}")
    became = {}
    for p, (n, first) in zip(params, want):
        if p != "_":
            became[p] = f"l.initial.{n}" if first else f"l.{n}"
    token = re.compile(r"(?<![\w'.\-\u2080-\u2089])(" + "|".join(map(re.escape, sorted(became, key=len, reverse=True))) + r")(?![\w'\-\u2080-\u2089])") if became else None
    def sub(mm):
        return became[mm.group(1)]
    if token:
        body = token.sub(sub, body)
    return f"{comment}abbrev pub {kind}-{new} : goal.{kind}-{new}\n{kind}-{new} l ={body}"


def record(fields, expression, left, name):
    e = expression.strip()
    if len(fields) == 1:
        return f"record {{ {fields[0]} = {e} }}"
    if e.startswith("(") and closing(e, 0) == len(e) - 1:
        parts, rest = [], e
        while len(parts) < len(fields) - 1 and rest.startswith("(") and closing(rest, 0) == len(rest) - 1:
            items = [p.strip() for p in split_at(rest[1:-1], ",") if p.strip()]
            if len(items) == len(fields) - len(parts):
                parts += items
                break
            if len(items) != 2:
                break
            parts.append(items[0])
            rest = items[1]
        else:
            parts.append(rest)
        if len(parts) == len(fields):
            return "record { " + "; ".join(f"{f} = {p}" for f, p in zip(fields, parts)) + " }"
    if not e.startswith("record"):
        left.append(f"{name}: asks for {fields}")
    return e


def shape(body):
    body = body.strip("\n")
    if "\n" in body:
        return "\n    " + body.strip()
    return " " + body.strip()


def convert(function, text):
    f, left = function, function.left
    lines = text.split("\n")
    k = 0
    while k < len(lines) and (lines[k].startswith("--") or not lines[k].strip() or lines[k].startswith("use ")):
        k += 1
    while k > 0 and lines[k - 1].startswith("--"):
        k -= 1
    head, rest = lines[:k], "\n".join(lines[k:])
    comments = [l for l in head if l.startswith("--")]
    uses = [l for l in head if l.startswith("use ") and "Statement.{statement}" not in l and not l.endswith("Tie as tie")]
    blocks = []
    for b in re.split(r"\n\s*\n", rest.strip("\n")):
        if blocks and (b.startswith(" ") or (blocks[-1].rstrip().endswith("where") and b.startswith("  "))):
            blocks[-1] += "\n\n" + b
        else:
            blocks.append(b)
    invariants, answers, plain_helpers = [], [], []
    # names of the old answers, and the types of helpers
    for b in blocks:
        for m in re.finditer(r"(?m)^\s*(?:abbrev |pub )*(" + ID + r") : (.*?)(?=\n\s*\1[ \n]|\Z)", b, re.S):
            name, signature = m.groups()
            n = re.match(r"tie\.Need-([\w'\-]+)", signature)
            if n:
                key = f.need(n.group(1))
                if key:
                    f.decl_names[name] = f.needs[key]
                continue
            parts = split_at(re.sub(r"\s+", " ", signature), "→")
            r = re.match(r"\s*tie\.([\w'\-]+)", parts[-1])
            if r and plain(r.group(1)) in f.new_place:
                f.helpers[name] = plain(r.group(1))
            asked = []
            mod = re.match(r"(?s)(?:--[^\n]*\n)*module _ (.*?) where\n", b)
            if mod and "\n  " in m.group(0)[:1] + "\n  " and not re.match(r"module", m.group(0)):
                for g in re.finditer(r"\(([^():]*) : ([^()]*(?:\([^()]*\)[^()]*)*)\)", mod.group(1)):
                    p = re.match(r"tie\.([\w'\-]+)", g.group(2).strip())
                    asked += [plain(p.group(1)) if p and plain(p.group(1)) in f.new_place else None] * len(g.group(1).split())
            inner = list(asked)
            for part in parts[:-1]:
                part = part.strip()
                if part.startswith("{"):
                    continue
                groups = re.findall(r"\(([^():]*) : ([^()]*(?:\([^()]*\)[^()]*)*)\)", part) if re.match(r"\([^():]* : ", part) else [("_", part)]
                for names_, ty in groups:
                    p = re.match(r"tie\.([\w'\-]+)", ty.strip())
                    asked += [plain(p.group(1)) if p and plain(p.group(1)) in f.new_place else None] * len(names_.split())
            f.params[name] = asked
            f.in_module[name] = len(inner)

    def environment(signature, params, outer):
        env = dict(outer)
        position = 0
        for part in split_at(re.sub(r"\s+", " ", signature), "\u2192"):
            part = part.strip()
            if part.startswith("{"):
                continue
            groups = re.findall(r"\(([^():]*) : ([^()]*(?:\([^()]*\)[^()]*)*)\)", part) if re.match(r"\([^():]* : ", part) else [(None, part)]
            for names_, ty in groups:
                p = re.match(r"tie\.([\w'\-]+)", ty.strip())
                for nm in (names_.split() if names_ else [None]):
                    if p and plain(p.group(1)) in f.new_place:
                        at = plain(p.group(1))
                        if nm:
                            env[nm] = ((nm, at, False), at)
                        if position < len(params):
                            env[params[position]] = ((params[position], at, False), at)
                    position += 1
        return env

    def body_turned(b, outer):
        """A block of declarations with their contexts turned."""
        out = []
        # parts: signature and clauses
        items = re.split(r"(?m)^(?=\s*(?:abbrev |pub |unfoldable )*" + ID + r" : )", b)
        for it in items:
            m = re.match(r"(?s)(\s*(?:abbrev |pub |unfoldable )*)(" + ID + r") : (.*?)(?=\n\s*(?:unfolding[^\n]*\n\s*)?\2(?:[ \n]))", it)
            if not m:
                out.append(f.types(f.turned(it, outer)))
                continue
            name, signature = m.group(2), m.group(3)
            rest = it[m.end():]
            env = environment(signature, [], outer)
            pieces = re.split(r"(?m)^(?=\s*" + re.escape(name) + r"(?:[ \n]))", rest)
            done = []
            for piece in pieces:
                c = re.match(r"\s*" + re.escape(name) + r"((?:\s+[\w'\u2080-\u2089\u03ba]+)*)\s*=", piece)
                params = c.group(1).split() if c else []
                f.parts = {}
                if c:
                    done.append(piece[:c.end()] + f.turned(piece[c.end():], environment(signature, params, outer), f.helpers.get(name)))
                else:
                    done.append(f.turned(piece, environment(signature, params, outer)))
            f.parts = {}
            cut = m.start(3)
            out.append(it[:cut] + f.types(f.turned(it[cut:m.end()], env)) + "".join(done))
        return "".join(out)

    for b in blocks:
        core = re.sub(r"(?m)^--[^\n]*\n", "", b)
        if re.match(r"abbrev (?:pub )?(invariant|decreases)-[\w'\-]+ : tie\.", core):
            invariants.append(invariant(f, b, left))
            continue
        if re.match(r"pub [\w'\-]+[-_]spec : ", core):
            continue
        m = re.match(r"(?s)(" + ID + r") : tie\.Need-([\w'\-]+)[^\n]*\n(\s*unfolding [^\n]*\n)?(.*)", core)
        if m:
            name, need, unfolding, clause = m.groups()
            key = f.need(need)
            if key is None:
                if plain(need) not in f.settled and re.sub(r"^(overflow|nonzero)_", "", plain(need)) not in f.settled:
                    left.append("no goal " + need)
                    answers.append("-- TODO no goal " + need + "\n" + "\n".join("-- " + x for x in b.split("\n")))
                continue
            new = f.needs[key]
            comment = "".join(x + "\n" for x in b.split("\n") if x.startswith("--") and b.index(x) < b.index(m.group(1)))
            clauses = re.split(r"(?m)^(?=" + re.escape(name) + r" )", clause)
            if len([c for c in clauses if c.strip()]) != 1:
                left.append(f"{name}: several clauses")
            cm = re.match(r"(?s)" + re.escape(name) + r"((?:\s+[\w'\u2080-\u2089\u03ba]+)*)\s*=\s(.*)", clause)
            if not cm:
                left.append(f"{name}: not read")
                answers.append("-- TODO\n" + b)
                continue
            params, body = cm.group(1).split(), cm.group(2)
            where = ""
            w = re.search(r"(?m)^\s+where$", body)
            if w:
                body, where = body[:w.start()].rstrip(), "\n" + body[w.start():]
            if body.strip() in ("tt", "search rules"):
                continue
            ctx = params[0] if params else "c"
            at = f.need_at[key]
            env = {ctx: ((ctx, at, f.typed[at]), at)}
            f.parts = {}
            body = f.turned(body, env)
            where = f.types(f.turned(where, env))
            asked = f.facts["asked"]
            fields = next((asked[a] for a in asked if plain(a) == key), None)
            lets, last = after_lets(body)
            if fields:
                last = " " + record(fields, last, left, new) if lets else record(fields, last, left, new)
            body = lets + last
            shown = [p for p in params[1:] if not p.startswith("\u03ba")]
            answers.append(f"{comment}pub {new} : goal.{new}\n{unfolding or ''}{new} {' '.join([ctx] + shown)} ={shape(body)}{where}")
            continue
        mm = re.match(r"(?s)module _ (.*?) where\n", core)
        outer = {}
        if mm:
            for g in re.finditer(r"\(([^():]*) : tie\.([\w'\-]+)", mm.group(1)):
                for nm in g.group(1).split():
                    outer[nm] = ((nm, plain(g.group(2)), False), plain(g.group(2)))
        if "tie." not in b:
            plain_helpers.append(b)
            answers.append(b)
            continue
        if mm:
            i = b.index("where\n") + 6
            kept = dict(f.params)
            for nm in re.findall(r"(?m)^\s+(?:abbrev |pub |unfoldable )*(" + ID + r") : ", b):
                if nm in f.params:
                    f.params[nm] = f.params[nm][f.in_module.get(nm, 0):]
            for nm, ty in re.findall(r"(?m)^\s+(?:abbrev |pub |unfoldable )*(" + ID + r") : tie\.([\w'\-]+)[^\n\u2192]*\n", b):
                if plain(ty) in f.new_place:
                    outer[nm] = ((nm, plain(ty), False), plain(ty))
            answers.append(f.types(b[:i]) + body_turned(b[i:], outer))
            f.params = kept
        else:
            answers.append(body_turned(b, outer))
    text_answers = "\n\n".join(answers)
    # invariants may rest on plain helpers
    moved = []
    inv_text = "\n\n".join(invariants)
    for h in reversed(plain_helpers):
        name = re.search(r"(?m)^(?:abbrev |pub |unfoldable )*(" + ID + r") : ", h)
        if name and re.search(r"(?<![\w'.\-])" + re.escape(name.group(1)) + r"(?![\w'\-])", inv_text):
            moved.insert(0, (name.group(1), h))
            inv_text = h + "\n\n" + inv_text
    for name, h in moved:
        text_answers = text_answers.replace(h + "\n\n", "").replace(h, "")
    text_answers = re.sub(r" \u03bas(?![\w'])", "", text_answers)
    text_answers = re.sub(r"(?<=[\w)'])\.pre((?:\.[01](?![\w]))*)(?![\w'\-])", lambda m: "." + ".".join(f.requires([s for s in m.group(1).split(".") if s])), text_answers)
    text_answers = re.sub(r"\.inv(?![\w'\-])", ".invariant", text_answers)
    module = f"Rattle.{f.crate}.proofs.{f.path.replace('/', '.')}"
    out = {}
    if invariants:
        pubs = []
        for name, h in moved:
            pubs.append(re.sub(r"(?m)^(abbrev )?(?!pub )(?=" + re.escape(name) + " : )", lambda m: (m.group(1) or "") + "pub ", h))
        out["Invariants.antt"] = "\n".join(comments + uses + [f"use {module}.Given as goal"]) + "\n\n" + "\n\n".join(pubs + invariants) + "\n"
    if text_answers.strip():
        more = []
        if f.used_places:
            more.append(f"use {module}.Goals.{{{', '.join(sorted(f.used_places))}}}")
        if moved:
            more.append(f"use {module}.Invariants.{{{', '.join(n for n, _ in moved)}}}")
        head = comments if not invariants else comments[:1]
        out["Answers.antt"] = "\n".join(comments + uses + [f"use {module}.Goals as goal"] + more) + "\n\n" + text_answers.strip("\n") + "\n"
    return out


def main():
    names, crate = sys.argv[1:3]
    facts = json.load(open(names, encoding="utf-8"))
    crate = crate.rstrip("/")
    name = os.path.basename(crate)
    for folder, dirs, files in sorted(os.walk(os.path.join(crate, "proofs"))):
        if "Proof.antt" not in files:
            continue
        path = os.path.relpath(folder, os.path.join(crate, "proofs"))
        if len(sys.argv) > 3 and path not in sys.argv[3:]:
            continue
        key = f"Rattle-{name}-proofs.{path.replace('/', '.')}.Lts"
        if key not in facts:
            print(f"{path}: no names ({key})")
            continue
        function = Function(facts[key], name, path)
        with open(os.path.join(folder, "Proof.antt"), encoding="utf-8") as it:
            out = convert(function, it.read())
        os.remove(os.path.join(folder, "Proof.antt"))
        for file, text in out.items():
            with open(os.path.join(folder, file), "w", encoding="utf-8") as it:
                it.write(text)
        for l in function.left:
            print(f"{path}: {l}")


main()
