#!/usr/bin/env python3
"""Turns each proofs/**/Proof.antt that walks the code by Tie into Invariants.antt and Answers.antt.

usage: python3 tools/turn_proofs.py NAMES CRATE..      at the top of the repository

NAMES is the folder to which 'rt check --generated NAMES --old-names', run in the crate's folder, writes names.json.
A Proof.antt that was turned is removed. It prints what it could not turn.
"""
import json
import os
import re
import sys

ID = r"[^\s(){}.;,@\"«»\[\]\\]+"
TOK = re.compile(r"(" + ID + r")((?:\." + ID + r")*)")


def canon(s):
    return re.sub(r"[-_]", "", s)


def snake(name):
    name = name.replace("-", "_")
    return re.sub(r"(?<=[a-z0-9])([A-Z])", lambda it: "_" + it[1].lower(), name)


class Fn:
    def __init__(self, of):
        self.parent, self.old, self.new, self.callee, self.newname = {}, {}, {}, {}, {}
        self.bycanon = {}
        for i, (name, parent, (o, n), callee, _) in enumerate(of["places"]):
            self.parent[name] = parent
            self.old[name] = o
            self.new[name] = n
            self.callee[name] = callee
            self.newname[name] = of["places_by_name"][i]
            self.bycanon[canon(name)] = name
        self.arms = {p[0]: a for p, a in zip(of["places"], of["arms"])}
        self.needs = {}
        for (o, n), (at, _) in zip(of["needs"], of["asked_at"]):
            self.needs[canon(o)] = (n, self.bycanon.get(canon(at), at))
        self.loops = {}
        for (o, n), vs in of["loops"]:
            self.loops[canon(o)] = (n, vs)
        self.asked = of["asked"]
        self.params = of["params"]

    def need(self, name):
        for it in (name, re.sub(r"^(overflow|nonzero)-", "", name), re.sub(r"^element-copy-out", "shared_slice_read", name), re.sub(r"^element-copy-out", "slice_read", name), re.sub(r"^slice-bounds", "part", name)):
            if canon(it) in self.needs:
                return self.needs[canon(it)]
        return None

    def oldneed(self, name):
        for it in (name, re.sub(r"^(overflow|nonzero)-", "", name), re.sub(r"^element-copy-out", "shared_slice_read", name), re.sub(r"^element-copy-out", "slice_read", name)):
            if canon(it) in self.needs:
                return it
        return name

    def place(self, name):
        return self.bycanon.get(canon(name))

    def up(self, place):
        return self.parent.get(place)

    def depth(self, below, above):
        n, p = 0, below
        while p is not None and p != above:
            p, n = self.parent[p], n + 1
        return n if p == above else None


def items(text):
    """The file's chunks that begin at column 0: (comment lines before, text)."""
    out, cur, com = [], [], []
    for line in text.split("\n"):
        if cur and (not line.strip()):
            out.append(("\n".join(com), "\n".join(cur)))
            cur, com = [], []
        elif not cur and line.startswith("--"):
            com.append(line)
        elif not line.strip():
            if com:
                out.append(("\n".join(com), ""))
                com = []
        else:
            cur.append(line)
    if cur or com:
        out.append(("\n".join(com), "\n".join(cur)))
    return out


def pieces(inner):
    out, depth, cur = [], 0, ""
    for ch in inner:
        if ch in "({[":
            depth += 1
        elif ch in ")}]":
            depth -= 1
        if ch == "," and depth == 0:
            out.append(cur)
            cur = ""
        else:
            cur += ch
    if cur.strip():
        out.append(cur)
    return [it.strip() for it in out]


def as_record(rhs, clauses):
    """A body that ends in a tuple, with that tuple as a record of the clauses."""
    body = rhs.rstrip()
    if not body.endswith(")"):
        return None
    depth, k = 0, len(body) - 1
    while k >= 0:
        if body[k] in ")}]":
            depth += 1
        elif body[k] in "({[":
            depth -= 1
            if depth == 0:
                break
        k -= 1
    before = body[:k].rstrip()
    if before and not before.endswith("in"):
        return None
    parts = pieces(body[k + 1 : -1])
    while len(parts) < len(clauses) and len(parts) > 1 and parts[-1].startswith("(") and parts[-1].endswith(")"):
        parts = parts[:-1] + pieces(parts[-1][1:-1])
    if len(parts) != len(clauses):
        return None
    fields = "\n".join(f"      {c} = {it};" for c, it in zip(clauses, parts))
    return (before or "") + " record {\n" + fields + "\n    }"


CLAUSES = {}
PARAMS = {}


def by_name(names, rest):
    """A path into clauses that were joined by pairs, as a path that begins with a clause's name."""
    k, n = 0, len(names)
    rest = list(rest)
    while k < n - 1:
        if not rest or rest[0] not in ("0", "1"):
            return None
        if rest.pop(0) == "0":
            return [names[k]] + rest
        k += 1
    return [names[n - 1]] + rest


class Turn:
    def __init__(self, fn, helpers, mutslices, log):
        self.fn, self.helpers, self.mutslices, self.log = fn, helpers, mutslices, log
        self.own = ()
        self.own_params = ()
        self.takes = {}
        self.inl = {}

    def path(self, base, place, fields):
        """A path from the place, as a path from base (a variable at place top)."""
        fn = self.fn
        var, top = base
        while fields and fields[0] == "before":
            fields = fields[1:]
            if fn.up(place) is not None:
                place = fn.up(place)
        if not fields:
            n = fn.depth(top, place)
            if n is None:
                self.log(f"no way from {top} to {place}")
                n = 0
            return ("place", var + ".before" * n, place)
        f = fields[0]
        if f in ("args", "requires", "pre", "ranges", "lifetimes"):
            head = "requires" if f == "pre" else f
            rest = fields[1:]
            if head == "requires" and rest and rest[0].isdigit() and len(self.own) > 1:
                rest = by_name(self.own, rest) or rest
            if head in ("args", "ranges") and rest:
                rest = [self.arg(rest[0])] + rest[1:]
            return ("value", ".".join([var, head] + rest), ("args", None) if not rest and head == "args" else None)
        p = place
        f = re.sub(r"_lem$", "", f)
        for want in (canon(f), canon(f).lower(), re.sub(r"^is", "", canon(f).lower())):
            p = place
            while p is not None and canon(fn.old[p]).lower() != want and canon(fn.old[p]) != want:
                p = fn.up(p)
            if p is None:
                p = top
                while p is not None and canon(fn.old[p]).lower() != want and canon(fn.old[p]) != want:
                    p = fn.up(p)
            if p is not None:
                break
        if p is None:
            self.log(f"no step {f} at {place}")
            return ("value", ".".join([var] + fields), None)
        if p != place:
            self.log(f"step {f} found above {place}, at {p}")
        rest = fields[1:]
        if not (fn.old[p].startswith("match") and rest and re.match(r"keys\d*$", rest[0])):
            q = top
            while q is not None:
                for name, step, way in (fn.arms.get(q) or [0, 0, []])[2]:
                    if canon(step) == canon(fn.old[p]) and rest[: len(way)] == way and (way or fn.old[p].startswith("match")):
                        return ("value", ".".join([var, fn.arms[q][0], name] + rest[len(way) :]), None)
                q = fn.up(q)
        rest = self.rest(p, rest)
        names = CLAUSES.get(tuple((fn.callee[p] or "::").split("::")[:1] + (fn.callee[p] or "::").split("::")[-1:]), ((), ()))[1]
        if rest in (["auto"], ["new"]) and fn.params.get(fn.callee[p]):
            return ("value", ".".join([var, fn.new[p]] + rest), ("slices", fn.params[fn.callee[p]]))
        if rest == ["ensures"] and len(names) > 1:
            return ("value", ".".join([var, fn.new[p]] + rest), ("clauses", names))
        return ("value", ".".join([var, fn.new[p]] + rest), ("step", p) if not rest else None)

    def arg(self, name):
        m = re.fullmatch(r"t(\d+)", name)
        if m and name not in self.own_params and int(m[1]) <= len(self.own_params):
            return self.own_params[int(m[1]) - 1]
        return name.replace("-", "_")

    def rest(self, p, rest):
        fn = self.fn
        if not rest:
            return rest
        if rest[0] in ("auto", "new") and len(rest) > 1 and re.fullmatch(r"\d+", rest[1]):
            k, j = 0, 1
            while j < len(rest) and rest[j] == "1":
                k, j = k + 1, j + 1
            if j < len(rest) and rest[j] == "0":
                j += 1
            names = fn.params.get(fn.callee[p]) or ()
            if k < len(names):
                rest = [rest[0], names[k]] + rest[j:]
            else:
                self.log(f"{rest[0]}.{k} at {p} {fn.callee[p]}")
        if rest[0] == "ensures" and len(rest) > 1 and rest[1].isdigit() and fn.callee[p]:
            names = CLAUSES.get((fn.callee[p].split("::")[0], fn.callee[p].split("::")[-1]), ((), ()))[1]
            if len(names) > 1:
                rest = ["ensures"] + (by_name(names, rest[1:]) or rest[1:])
        if fn.old[p].startswith("match") and re.match(r"keys\d*$", rest[0]):
            rest = ["is"] + rest[1:]
        rest = [{"type-inv": "type_inv", "element-fits": "element_fits"}.get(it, it) for it in rest]
        if p.startswith("At-loop") or fn.callee[p] is None:
            rest = [it.replace("-", "_") if re.fullmatch(r"[a-z]+(-[a-z0-9]+)+", it) and it not in ("in-bounds",) else it for it in rest]
        return rest

    def body(self, text, env):
        """Translates text, in which env gives variables at places."""
        fn = self.fn
        env = dict(env)
        # lets that name a place
        pos, out = 0, []
        let = re.compile(r"let (" + ID + r") = \(?((?:" + ID + r" )?" + ID + r"(?:\." + ID + r")*)\)? in\s*")
        while True:
            m = let.search(text, pos)
            if not m:
                break
            got = self.value(m[2], env)
            if got and got[0] == "place":
                out.append(self.plain(text[pos:m.start()], env))
                env[m[1]] = ("alias", got)
                pos = m.end()
            elif got and got[2]:
                out.append(self.plain(text[pos:m.start()], env))
                out.append(f"let {m[1]} = {got[1]} in" + m[0][m[0].rindex(" in") + 3 :])
                env[m[1]] = got[2]
                pos = m.end()
            else:
                end = m.start() + 4
                out.append(self.plain(text[pos:end], env))
                pos = end
        out.append(self.plain(text[pos:], env))
        return "".join(out)

    def value(self, expr, env):
        words = expr.split(" ")
        if len(words) == 2 and words[0] in self.helpers and self.helpers[words[0]]:
            inner = self.value(words[1], env)
            if inner and inner[0] == "place":
                to = self.helpers[words[0]]
                base = self.base(words[1], env)
                got = self.path(base, to, [])
                return got and (*got, base)
            return None
        if len(words) != 1:
            return None
        m = TOK.fullmatch(expr)
        if not m or m[1] not in env:
            return None
        return self.lookup(m[1], m[2].split(".")[1:], env)

    def base(self, expr, env):
        v = TOK.fullmatch(expr)[1]
        kind = env[v]
        if kind[0] == "var":
            return (kind[1], kind[2])
        return kind[1][3] if len(kind[1]) > 3 else None

    def lookup(self, v, fields, env):
        kind = env[v]
        if kind[0] == "var":
            got = self.path((kind[1], kind[2]), kind[2], fields)
            return got and (*got, (kind[1], kind[2]))
        if kind[0] == "alias":
            got = kind[1]
            base = got[3]
            res = self.path(base, got[2], fields)
            return res and (*res, base)
        if kind[0] == "slices":
            k, j = 0, 0
            while j < len(fields) and fields[j] == "1":
                k, j = k + 1, j + 1
            if j < len(fields) and fields[j] == "0":
                j += 1
            if not j or k >= len(kind[1]):
                return ("value", ".".join([v] + fields), None, None)
            return ("value", ".".join([v, kind[1][k]] + fields[j:]), None, None)
        if kind[0] == "clauses":
            return ("value", ".".join([v] + (by_name(kind[1], fields) or fields) if fields else [v]), None, None)
        if kind[0] == "args":
            return ("value", ".".join([v] + [self.arg(it) for it in fields[:1]] + fields[1:]), None, None)
        if kind[0] == "step":
            return ("value", ".".join([v] + self.rest(kind[1], fields)), None, None)
        return None

    def plain(self, text, env):
        # (helper x).field
        def applied(m):
            h, arg, fields = m[1], m[2], m[3]
            if h in self.helpers and self.helpers[h]:
                v = TOK.fullmatch(arg)
                if v and v[1] in env and env[v[1]][0] in ("var", "alias"):
                    inner = self.lookup(v[1], v[2].split(".")[1:], env)
                    base = inner[3] if len(inner) > 3 else (env[v[1]][1], env[v[1]][2])
                    got = self.path(base, self.helpers[h], fields.split(".")[1:])
                    if got:
                        return got[1]
            return m[0]

        keep = []

        def stash(m):
            r = applied(m)
            if r == m[0]:
                return r
            keep.append(r)
            return f"\x00{len(keep) - 1}\x00"

        text = re.sub(r"\((" + ID + r") (" + ID + r"(?:\." + ID + r")*)\)((?:\." + ID + r")+)", stash, text)

        whole = [text]

        def one(m):
            v, fields = m[1], m[2].split(".")[1:]
            if v not in env:
                return m[0]
            got = self.lookup(v, fields, env)
            if not got:
                return m[0]
            if got[0] == "place":
                before = re.search(r"(" + ID + r")\s+$", whole[0][: m.start()])
                word = before[1] if before else ""
                if word in self.inl:
                    return "\x01"
                if word in self.takes and self.takes[word]:
                    base = got[3]
                    n = self.fn.depth(base[1], self.takes[word])
                    if n is None:
                        self.log(f"{word}: no way from {base[1]} to {self.takes[word]}")
                    else:
                        return base[0] + ".before" * n
                elif v == "at":
                    return m[0]
            return got[1]

        parts, out = re.split(r"(--[^\n]*)", text), []
        for it in parts:
            whole[0] = it
            out.append(it if it.startswith("--") else TOK.sub(one, it))
        text = re.sub(r"\s*\x01", "", "".join(out))
        text = re.sub(r"\((" + "|".join(map(re.escape, self.inl)) + r")\)", r"\1", text) if self.inl else text
        # helper applied to a place, bare: the projections go
        return re.sub("\x00(\\d+)\x00", lambda m: keep[int(m[1])], text)


def split_item(text):
    """name, signature (after ':'), the lines between, clauses text."""
    m = re.match(r"((?:abbrev |pub |unfoldable )*)(" + ID + r") :", text)
    if not m:
        return None
    name = m[2]
    lines = text.split("\n")
    sig, k = [lines[0]], 1
    while k < len(lines) and not re.match(re.escape(name) + r"(?=[\s])", lines[k]) and not lines[k].startswith("unfolding"):
        sig.append(lines[k])
        k += 1
    unf = []
    while k < len(lines) and lines[k].startswith("unfolding"):
        unf.append(lines[k])
        k += 1
    return m[1], name, "\n".join(sig)[m.end() :], unf, "\n".join(lines[k:])


PLACE = re.compile(r"tie\.((?:Start|At|In|After|Then|Else|Joined|Arm|Not)[^\s()]*)((?: (?:invariant|decreases)-[^\s()]+)*)")


def convert(path, fn, module, crate, mutslices, say):
    text = open(path, encoding="utf-8").read()
    its = items(text)
    uses, header = [], its[0][0]
    body = []
    for k, (com, t) in enumerate(its):
        ls = t.split("\n")
        u = [l for l in ls if l.startswith("use ")]
        rest = [l for l in ls if not l.startswith("use ")]
        uses += u
        if k == 0:
            com = ""
        rest = "\n".join(rest).strip("\n")
        if rest:
            body.append((com, rest))
    uses = [u for u in uses if ".Statement." not in u and not re.search(r"\.Tie as tie|\.Tie$", u)]
    log = lambda s: say(f"{path}: {s}")
    # helpers that give a place
    helpers = {}
    for com, t in body:
        s = split_item(t)
        if s and "tie.Need" not in s[2] and "tie.invariant" not in s[2].split("→")[-1]:
            last = re.split(r"→", s[2])[-1].strip()
            m = PLACE.match(last)
            if m and "→" in s[2]:
                helpers[s[1]] = fn.place(m[1])
    turn = Turn(fn, helpers, mutslices, log)
    for com, t in body:
        s = split_item(t)
        if s and "tie.Need" not in s[2] and not re.match(r"\s*tie\.(invariant|decreases)", s[2]):
            m = PLACE.search(s[2])
            if m:
                turn.takes[s[1]] = fn.place(m[1])
    turn.own_params = PARAMS.get((crate, module.split(".")[-1]), ())
    turn.own = CLAUSES.get((crate, module.split(".")[-1]), ((), ()))[0]
    inv, ans, plain_items = [], [], []
    inl = {}
    order = []
    for com, t in body:
        s = split_item(t)
        if not s or "tie.Need" in s[2] or re.match(r"\s*tie\.(invariant|decreases)", s[2]) or "tie.close" in s[4] or "tie." not in s[2]:
            continue
        mods, name, sig, unf, clauses = s
        if name in helpers and helpers[name]:
            continue
        m = re.match(r"\s*\((" + ID + r") : " + PLACE.pattern + r"\)\s*", sig) or re.match(r"\s*()" + PLACE.pattern + r"\s*(?=→)", sig)
        if not m or PLACE.search(sig[m.end() :]) or re.search(r"^\s*where", clauses, re.M):
            log(f"helper {name} not inlined")
            continue
        rest = sig[m.end() :].lstrip()
        if rest.startswith("→"):
            rest = rest[1:].lstrip()
        cm = re.match(re.escape(name) + r" (" + ID + r")((?: " + ID + r")*?) =(?=\s)", clauses)
        if not cm or re.search(r"^" + re.escape(name) + " ", clauses[cm.end() :], re.M):
            log(f"helper {name}: clauses not understood")
            continue
        binder = m[1] or cm[1]
        inl[name] = (fn.place(m[2]), binder, rest.rstrip(), cm[1], cm[2].split(), clauses[cm.end() :].strip(), unf, com)
        order.append(name)

    turn.inl = inl

    def uses_of(text):
        words = set(re.findall(ID, text))
        todo, seen = [n for n in order if n in words], []
        while todo:
            n = todo.pop()
            if n not in seen:
                seen.append(n)
                words = set(re.findall(ID, inl[n][5] + " " + inl[n][2]))
                todo += [k for k in order if k in words and k != n]
        return [n for n in order if n in seen]

    def lets(rhs_old, v, at):
        """The helpers that an answer uses, as lets, and the unfolding lines that they want."""
        out, unfs = [], []
        for n in uses_of(rhs_old):
            place, tb, typ, cv, args, hbody, unf, com = inl[n]
            alias = lambda b: {b: ("alias", ("place", "", place, (v, at)))}
            nt = turn.body(typ, alias(tb)).strip()
            nb = turn.body(hbody, alias(cv)).strip()
            if "let " in nt or "\n" in nt:
                nt = "(" + nt + ")"
            if args:
                nb = "λ " + " ".join(args) + ". " + nb
            c = re.sub(r"^-- ?", "", com.strip().split("\n")[-1]) if com else ""
            out.append((f"    -- {c}\n" if c else "") + f"    let {n} : {nt} = {nb} in\n")
            unfs += unf
        return "".join(out), unfs
    names_used = set()
    place_names = set()

    def new_place(m):
        p = fn.place(m[1])
        if p is None:
            log(f"no place {m[1]}")
            return m[0]
        place_names.add(fn.newname[p])
        return fn.newname[p]

    local = {}
    for com, t in body:
        s = split_item(t)
        if s is None:
            m = re.match(r"module _", t)
            log(f"item not understood: {t.splitlines()[0][:100]}")
            plain_items.append((com, t, None))
            continue
        mods, name, sig, unf, clauses = s
        sigs = sig.strip()
        if re.match(r"tie\.invariant-|tie\.decreases-", sigs):
            kind, lname = re.match(r"tie\.(invariant|decreases)-(\S+)", sigs).groups()
            got = fn.loops.get(canon(lname))
            if not got:
                log(f"no loop {lname}")
                continue
            newloop, vs = got
            m = re.match(re.escape(name) + r"((?: " + ID + r")*?) =(?=\s)", clauses)
            params = m[1].split()
            bycanon = {canon(v): v for v in vs}
            table = {}
            for p in params:
                q = p.rstrip("₀")
                v = bycanon.get(canon(q), q.replace("-", "_"))
                if p.endswith("₀"):
                    table[p] = f"l.initial.{v}"
                else:
                    table[p] = f"l.{v}"
            rhs = clauses[m.end() :]
            # record fields such as { offsets = offsets; .. } keep their left side
            def sub(mm):
                w = mm[1]
                if w in table:
                    after = rhs[mm.end(1) : mm.end(1) + 3]
                    return table[w] + mm[2]
                return mm[0]
            parts = re.split(r"(record \{[^{}]*\})", rhs)
            done = []
            for part in parts:
                if part.startswith("record {"):
                    fields = part[len("record {") : -1].split(";")
                    nf = []
                    for f in fields:
                        if "=" in f:
                            a, b = f.split("=", 1)
                            nf.append(a + "=" + TOK.sub(lambda mm: table[mm[1]] + mm[2] if mm[1] in table else mm[0], b))
                        else:
                            nf.append(f)
                    done.append("record {" + ";".join(nf) + "}")
                else:
                    done.append(TOK.sub(lambda mm: table[mm[1]] + mm[2] if mm[1] in table else mm[0], part))
            rhs = "".join(done)
            gname = f"{kind}-{newloop}"
            inv.append((com, f"abbrev pub {gname} : goal.{gname}\n" + ("\n".join(unf) + "\n" if unf else "") + f"{gname} l =" + rhs, name))
            continue
        m = re.match(r"tie\.Need-(\S+)", sigs)
        if m:
            got = fn.need(m[1])
            if not got:
                log(f"need {m[1]} is gone")
                continue
            newname, at = got
            cm = re.match(re.escape(name) + r" (" + ID + r")((?: " + ID + r")*?) =(?=\s)", clauses)
            if not cm:
                log(f"clause of {name} not understood")
                continue
            v = cm[1]
            if fn.place(at) is None and at not in fn.parent:
                log(f"no place {at} for {newname}")
                continue
            rhs = turn.body(clauses[cm.end() :], {v: ("var", v, at)})
            extra_args = [w for w in cm[2].split() if w != "κs"]
            if extra_args:
                rhs = " λ " + " ".join(extra_args) + "." + rhs
            pre, more = lets(clauses[cm.end() :], v, at)
            unf = unf + more
            if more:
                unf = ["unfolding " + " ".join(dict.fromkeys(w for u in unf for w in u.split()[1:]))]
            asked = next((cs for o, cs in fn.asked.items() if canon(o) == canon(fn.oldneed(m[1]))), ())
            if len(asked) > 1:
                as_rec = as_record(rhs, asked)
                if as_rec:
                    rhs = as_rec
                else:
                    log(f"{newname}: not a tuple of {asked}")
            if pre:
                rhs = "\n" + pre + "    " + rhs.lstrip()
            ans.append((com, f"pub {newname} : goal.{newname}\n" + ("\n".join(unf) + "\n" if unf else "") + f"{newname} {v} =" + rhs, name))
            continue
        if "tie.close" in clauses or re.search(r"→ statement M", sig):
            continue
        if name in inl:
            continue
        if name in helpers and helpers[name]:
            # a projection to a place goes: its uses were replaced
            continue
        if "tie." in sig:
            env = {}
            for bm in re.finditer(r"\((" + ID + r") : " + PLACE.pattern + r"\)", sig):
                env[bm[1]] = ("var", bm[1], fn.place(bm[2]))
            nsig = turn.body(sig, env)
            nsig = PLACE.sub(new_place, nsig)
            parts = re.split(r"→", sig)
            cenv = dict(env)
            out = []
            cm = re.match(re.escape(name) + r"((?: [^=\n]+?)?) =", clauses)
            if cm:
                args = re.findall(r"\([^)]*\)|" + ID, cm[1])
                # unnamed place binders by position
                tops = [x.strip() for x in re.split(r"→", sig)]
                pos = 0
                for tpart in tops[:-1]:
                    named = re.findall(r"\(([^():]+) : ", tpart)
                    n = sum(len(x.split()) for x in named) or 1
                    pm = PLACE.match(tpart)
                    if pm and pos < len(args):
                        cenv[args[pos]] = ("var", args[pos], fn.place(pm[1]))
                    else:
                        pm = re.match(r"\((" + ID + r") : " + PLACE.pattern, tpart)
                        if pm and pos < len(args):
                            cenv[args[pos]] = ("var", args[pos], fn.place(pm[2]))
                    pos += n
                rhs = turn.body(clauses[cm.end() :], cenv)
                clauses = clauses[: cm.end()] + rhs
            else:
                log(f"clause of helper {name} not understood")
            ans.append((com, f"{mods}{name} :{nsig}\n" + ("\n".join(unf) + "\n" if unf else "") + clauses, name))
            local[name] = True
            continue
        plain_items.append((com, t, name))
        ans.append((com, t, name))
    def args_of(s):
        for name in set(re.findall(r"let (" + ID + r") = c\.args in", s)):
            s = re.sub(r"(?<![^\s(])" + re.escape(name) + r"\.(" + ID + ")", lambda m: name + "." + turn.arg(m[1]), s)
        return s

    ans = [(c, args_of(s), n) for c, s, n in ans]
    fix = lambda s: re.sub(r"\(not-(?:true|false) _ (c\.if-not-" + ID + r"\.(?:true|false))\)", r"\1", re.sub(r"(?<!\()not-(?:true|false) _ (c\.if-not-" + ID + r"\.(?:true|false))", r"\1", s))
    ans = [(c, fix(s), n) for c, s, n in ans]
    # local names in snake case
    mine = {n: snake(n) for _, _, n in plain_items + [(0, 0, k) for k in local] if n and snake(n) != n}
    if mine:
        ren = lambda s: re.sub(r"(?<![^\s(){},;])" + ID, lambda m: mine.get(m[0], m[0]), s)
        ans = [(c, ren(s), n) for c, s, n in ans]
        inv = [(c, ren(s), n) for c, s, n in inv]
        plain_items = [(c, ren(s), mine.get(n, n)) for c, s, n in plain_items]
        ans = [(c, s, mine.get(n, n)) for c, s, n in ans]
    folder = os.path.dirname(path)
    # plain items that invariants use go with them
    plain_names = {n for _, _, n in plain_items if n}
    need_inv = set()
    frontier = " ".join(t for _, t, _ in inv)
    changed = True
    while changed:
        changed = False
        for com, t, n in plain_items:
            if n and n not in need_inv and re.search(r"(?<![^\s(){}.;,])" + re.escape(n) + r"(?![^\s(){}.;,])", frontier):
                need_inv.add(n)
                frontier += " " + t
                changed = True
    inv_items = []
    for com, t, n in plain_items:
        if n in need_inv:
            mm = re.match(r"(abbrev |unfoldable )?(pub )?", t)
            t = (mm[1] or "") + "pub " + t[mm.end() :]
            inv_items.append((com, t))
    inv_items += [(c, t) for c, t, _ in inv]
    ans = [(c, t, n) for c, t, n in ans if n not in need_inv]

    # A part of a very large room: its end is by a lemma, since its length would be computed a word at a time.
    rooms = {m[3]: (m[1], m[2]) for _, s, _ in ans for m in re.finditer(r"part_of_room (\d+) _ (0|\(of_bits binary64 0\)) (c\.\S+?)\)", s)}

    def end(s):
        m = re.search(r"(?m)^(slice_bounds-\S+-end c =) (c\.\S+)$", s)
        if m and m[2] in rooms and int(rooms[m[2]][0]) > 200000:
            uses.append("use Rattle.pattern_bytes.proofs.RoomLaws.{end_of_room}")
            return s.replace(m[0], f"{m[1]} end_of_room {rooms[m[2]][0]} _ {rooms[m[2]][1]} {m[2]}")
        return s

    ans = [(c, end(s), n) for c, s, n in ans]

    def used(u, texts):
        m = re.match(r"use (\S+?)\.\{(.*)\}$", u)
        if not m:
            return u
        words = set(re.findall(ID, texts))
        keep = []
        for it in [x.strip() for x in m[2].split(",")]:
            n = it.split(" as ")[-1]
            if n == "[]":
                if "[]" in texts:
                    keep.append(it)
            elif "◌" in n:
                bits = [b for b in n.split("◌") if b]
                if all(b in words for b in bits):
                    keep.append(it)
            elif n in words:
                keep.append(it)
        return f"use {m[1]}.{{{', '.join(keep)}}}" if keep else None

    def write(name, its2, extra):
        texts = "\n".join(t for _, t in its2)
        us = [x for x in (used(u, texts) for u in uses) if x] + extra
        out = [header + "\n" + "\n".join(us) + "\n"]
        for c, t in its2:
            out.append((c + "\n" if c else "") + t + "\n")
        with open(os.path.join(folder, name), "w", encoding="utf-8") as f:
            f.write("\n".join(out))

    if inv_items:
        write("Invariants.antt", inv_items, [f"use Rattle.{crate}.proofs.{module}.Given as goal"])
    ans2 = [(c, t) for c, t, _ in ans]
    if ans2:
        extra = []
        texts = "\n".join(t for _, t in ans2)
        words = set(re.findall(ID, texts))
        ni = [n for n in need_inv if n in words]
        if ni:
            extra.append(f"use Rattle.{crate}.proofs.{module}.Invariants.{{{', '.join(sorted(ni))}}}")
        if place_names:
            extra.append(f"use Rattle.{crate}.proofs.{module}.Goals.{{{', '.join(sorted(place_names))}}}")
        extra.append(f"use Rattle.{crate}.proofs.{module}.Goals as goal")
        write("Answers.antt", ans2, extra)
    os.remove(path)


def mut_slices(crate_dirs):
    """Of each function name, its parameters that are &mut slices."""
    out = {}
    for c in crate_dirs:
        for top, _, names in os.walk(os.path.join(c, "src")):
            for n in names:
                if n.endswith(".rt"):
                    t = re.sub(r"//.*", "", open(os.path.join(top, n), encoding="utf-8").read())
                    for m in re.finditer(r"fn (\w+)(?:<[^>]*>)?\(([^{]*?)\)(?=\s*(?:->|requires|ensures|\{|\n))", t):
                        ps = re.findall(r"(\w+): &mut \[", m[2])
                        out[(os.path.basename(c), m[1])] = ps
                        PARAMS[(os.path.basename(c), m[1])] = [it.strip() for it in re.findall(r"(?:^|,)\s*(?:mut )?(\w+): ", m[2])]
                        clauses = t[m.end() :].split("\n{", 1)[0]
                        CLAUSES[(os.path.basename(c), m[1])] = (re.findall(r"requires (\w+) \{", clauses), re.findall(r"ensures (\w+) \{", clauses))
    return out


def main(argv):
    names, crates = argv[0], argv[1:]
    every = [os.path.join("crates", c) for c in sorted(os.listdir("crates"))]
    ms = mut_slices(every)
    with open(os.path.join(names, "names.json")) as f:
        data = json.load(f)
    for crate in crates:
        base = os.path.join("crates", crate, "proofs")
        for top, _, fs in sorted(os.walk(base)):
            if "Proof.antt" in fs:
                module = os.path.relpath(top, base).replace("/", ".")
                key = f"Rattle-{crate}-proofs.{module}.Lts"
                if key not in data:
                    print(f"{top}: no names for {key}")
                    continue
                try:
                    convert(os.path.join(top, "Proof.antt"), Fn(data[key]), module, crate, ms, print)
                except Exception as e:
                    print(f"{top}: FAILED {type(e).__name__} {e}")


if __name__ == "__main__":
    main(sys.argv[1:])
