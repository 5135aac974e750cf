#!/usr/bin/env python3
"""Turns proof files of the older form, proofs/F/Proof.antt over a Tie, into Invariants.antt and Answers.antt.

usage: python3 tools/port_proofs.py NAMES CRATE..     at the top of the repository

NAMES is a folder in which NAMES/CRATE/names.json is what `rt names` wrote for the crate. An answer that only says `search rules` goes. What it can't
turn it leaves in place with a line that begins `left:`.
"""
import json
import os
import re
import sys

WORD = r"[^\s(){}.;,@\"«»\[\]|]+"


def norm(s):
    return s.replace("-", "_")


class Func:
    def __init__(self, j, crate, path):
        self.j, self.crate, self.path = j, crate, path
        self.places = {p[0]: i for i, p in enumerate(j["places"])}
        self.asked = dict()
        self.needs = []
        for k, (old, new) in enumerate(j["needs"]):
            at = j["asked_at"][k][0] if k < len(j["asked_at"]) else None
            self.needs.append((norm(old), new, at))
        self.imports, self.left, self.named = set(), [], set()

    def place(self, name):
        n = norm(name)
        for p in self.places:
            if norm(p) == n:
                return p
        return None

    def up(self, place, k):
        for _ in range(k):
            if place is None:
                return None
            place = self.j["places"][self.places[place]][1]
        return place

    def nameable(self, place):
        """The nearest place from here back that today's Goals name."""
        while place is not None:
            i = self.places[place]
            new, p = self.j["places_by_name"][i], self.j["places"][i]
            if p[1] is None or not re.match(r"After-", place) or p[3] or re.match(r"After-loop", place):
                if not re.match(r"(In|At)-.*-\d$", new) and "arg" not in new:
                    return new
            place = p[1]
        return "Start"

    def need(self, name):
        n = norm(name)
        for cut in ("", "overflow_"):
            if n.startswith(cut):
                for old, new, at in self.needs:
                    if old == n[len(cut):] or old == n:
                        return old, new, at
        return None


def clause_path(fields, rest):
    """`.ensures` and positions behind it, where the clauses have names."""
    n, at = len(fields), 0
    rest = list(rest)
    while rest and at < n - 1:
        if rest[0] == "0":
            return [fields[at]], rest[1:]
        if rest[0] == "1":
            at += 1
            rest = rest[1:]
        else:
            return None, rest
    if at == n - 1 and at:
        return [fields[at]], rest
    return None, rest


def path(f, var, befores, segs, place, need):
    """The new words of VAR.before^k.segs at the place."""
    here = f.up(place, befores) if place else None
    if not segs:
        if befores == 0 and need is None:
            return var
        if here is None:
            return None
        new = f.nameable(here)
        if need is None:
            return var if new == f.nameable(place) else None
        f.named.add(new)
        return f"(goal.at.{need} {var}).{new}"
    s0 = norm(segs[0])
    if s0 in ("args", "requires", "ranges", "utf8"):
        return ".".join([var, s0] + [norm(x) if k == 0 and s0 == "args" else x for k, x in enumerate(segs[1:])])
    if here is None:
        return None
    i = f.places[here]
    p = f.j["places"][i]
    rest = segs[1:]
    # arms: number, detail, is, ensures
    arm = f.j["arms"][i]
    if arm:
        for new, old, how in arm[2]:
            if norm(old) == s0 and how and rest[: len(how)] == how:
                return ".".join([var, arm[0], new] + rest[len(how):])
    for v, old in f.j["typed"][i]:
        if norm(old) == s0 and rest[:1] == ["given"]:
            return ".".join([var, "type_inv", v] + rest[1:])
    if norm(p[2][0]) != s0:
        # a step of an enclosing record, cited from a record that is flat now
        for k, q in enumerate(f.j["places"]):
            if norm(q[2][0]) == s0:
                p, i = q, k
                break
        else:
            return None
        for new, old, how in (f.j["arms"][i] or [0, 0, []])[2]:
            if norm(old) == s0 and how and rest[: len(how)] == how:
                return ".".join([var, f.j["arms"][i][0], new] + rest[len(how):])
        for v, old in f.j["typed"][i]:
            if norm(old) == s0 and rest[:1] == ["given"]:
                return ".".join([var, "type_inv", v] + rest[1:])
    # what a call writes, and what is known of its lists, went by position
    if rest[:1] in (["auto"], ["new"]) and rest[1:] and set(rest[1:]) <= {"0", "1"} and p[3] in f.j["params"]:
        rest = [rest[0], f.j["params"][p[3]][rest[1:].count("1")]]
    step = p[2][1]
    for old, new in p[4]:
        if rest[:1] == [old]:
            rest = [new] + rest[1:]
            break
    if rest[:1] == ["ensures"]:
        c = f.j["clauses"][f.places[p[0]]]
        if c and len(c["fields"]) > 1:
            got, more = clause_path(c["fields"], rest[1:])
            if got:
                return ".".join([var, step, "ensures"] + got + more)
            if not rest[1:]:
                def nest(fs):
                    one = ".".join([var, step, "ensures", fs[0]])
                    return one if len(fs) == 1 else f"({one}, {nest(fs[1:])})"
                return nest(c["fields"])
    return ".".join([var, step] + [norm(x) if not re.match(r"^(true|false)", x) else x for x in rest])


PATH = re.compile(r"(?<![\w.'-])([A-Za-z_][\w']*)((?:\.before)*)((?:\.[A-Za-z0-9_'-]+)*)(?![\w'-])")


ALIAS = re.compile(r"let ([\w']+) = ([A-Za-z_][\w']*)((?:\.before)*) in(\s*)")


def body(f, text, var, place, need):
    alias = {}

    def drop(m):
        if m[2] == var or m[2] in alias:
            alias[m[1]] = alias.get(m[2], 0) + m[3].count(".before")
            return m[4].replace("\n", "", 1).lstrip(" ") if "\n" not in m[4] else m[4]
        return m[0]

    while True:
        new = ALIAS.sub(drop, text, count=1)
        if new == text:
            break
        text = new

    def one(m):
        if m[1] != var and m[1] not in alias:
            return m[0]
        k = m[2].count(".before") + alias.get(m[1], 0)
        segs = [x for x in m[3].split(".") if x]
        new = path(f, var, k, segs, place, need)
        if new is None and segs and m[1] == var == "w":
            return m[0]
        if new is None:
            f.left.append(m[0][-60:])
            return m[0]
        return new
    return PATH.sub(one, text)


def split(text):
    """Blocks between blank lines at column 0."""
    blocks, now = [], []
    for line in text.split("\n"):
        if line.strip() == "":
            now.append(line)
            continue
        if now and not line.startswith((" ", ")", "}", "]")) and any(not x.strip() for x in now[-1:]):
            blocks.append("\n".join(now).strip("\n"))
            now = []
        now.append(line)
    if now:
        blocks.append("\n".join(now).strip("\n"))
    return [b for b in blocks if b.strip()]


def tuple_parts(t):
    """The parts of a text that is one tuple."""
    t = t.strip()
    if not t.startswith("(") or not t.endswith(")"):
        return None
    depth, parts, start = 0, [], 1
    for i, c in enumerate(t):
        if c in "([{":
            depth += 1
        elif c in ")]}":
            depth -= 1
            if depth == 0 and i != len(t) - 1:
                return None
        elif c == "," and depth == 1:
            parts.append(t[start:i].strip())
            start = i + 1
    last = t[start:-1].strip()
    if last:
        parts.append(last)
    return parts if len(parts) > 1 else None


def fields_of(names, text):
    """A record of the clauses from nested pairs, or None."""
    out, rest = [], text
    for k, n in enumerate(names):
        if k == len(names) - 1:
            out.append((n, rest))
            break
        parts = tuple_parts(rest)
        if not parts:
            return None
        out.append((n, parts[0]))
        rest = parts[1] if len(parts) == 2 else "(" + ", ".join(parts[1:]) + ")"
    return out


def turn(file, j, crate, fpath, out=None):
    with open(file, encoding="utf-8") as it:
        text = it.read()
    f = Func(j, crate, fpath)
    f.where = file
    uses, comments, invs, helpers, answers = [], [], [], [], []
    for block in split(text):
        lines = block.split("\n")
        head = [l for l in lines if not l.startswith("--")]
        note = [l for l in lines[: len(lines) - len(head)] if l.startswith("--")]
        if not head:
            comments.append(block)
            continue
        if head[0].startswith("use "):
            # the block of uses may span lines
            uses.append("\n".join(head))
            comments += note
            continue
        sig = re.match(r"^(abbrev )?(pub )?(abbrev )?(\S+) : (.*)$", head[0])
        if not sig:
            helpers.append(block)
            continue
        name = sig[4]
        # the signature may go on
        k = 1
        while k < len(head) and not re.match(rf"^({re.escape(name)}\b|unfolding )", head[k]):
            k += 1
        typ = " ".join([sig[5]] + [x.strip() for x in head[1:k]])
        if re.search(r"\bstatement M\b", typ):
            continue
        rest = head[k:]
        unf = [l for l in rest if l.startswith("unfolding ")]
        clauses = "\n".join(l for l in rest if not l.startswith("unfolding "))
        m = re.match(r"tie\.(invariant|decreases)-(\S+)$", typ.strip()) or re.match(r"tie\.(invariant|decreases)_(\S+)$", typ.strip())
        if m:
            invs.append((m[1], m[2], name, unf, clauses, note))
            continue
        m = re.match(r"tie\.(?:Need|need)-(\S+)", typ.strip())
        if m:
            answers.append((m[1], name, unf, clauses, note))
            continue
        helpers.append(block)
    # loops
    loops = {}
    for (names, vars_), changed in zip(j["loops"], j["changed"]):
        loops[norm(names[0])] = (names[1], vars_, changed)
    out_inv = []
    for kind, loop, name, unf, clauses, note in invs:
        got = loops.get(norm(loop))
        if not got:
            f.left.append(f"{kind}-{loop}")
            continue
        new, vars_, changed = got
        mm = re.match(rf"^{re.escape(name)}((?: \S+)*?) =", clauses)
        if not mm:
            f.left.append(f"{kind}-{loop} by cases")
            continue
        params = mm[1].split()
        want = [f"l.initial.{v}" if c else f"l.{v}" for v, c in zip(vars_, changed)]
        want += [f"l.{v}" for v, c in zip(vars_, changed) if c]
        if len(want) != len(params):
            # each variable has both, in turn?
            f.left.append(f"{kind}-{loop}: {len(params)} parameters, {len(want)} known")
        sub = dict(zip(params, want))
        b = clauses[mm.end():]
        b = re.sub(r"(?<![\w.'-])([A-Za-z_][\w'₀-₉-]*)", lambda m: sub.get(m[1], m[1]) if m[1] != "_" else m[1], b)
        out_inv.append("\n".join(note + [f"abbrev pub {kind}-{new} : goal.{kind}-{new}"] + unf + [f"{kind}-{new} l ={b}"]))
    out_ans = []
    last = None
    for nm, name, unf, clauses, note in answers:
        got = f.need(nm)
        cut = re.match(r"slice[-_]bounds[-_](\S+)-(start|end)(-\d+)?$", nm)
        if not got and cut and last:
            got = (norm(nm), f"slice_bounds-{norm(cut[1])}-{cut[2]}{cut[3] or ''}", last)
        if got:
            last = got[2]
        if not got:
            f.left.append(f"goal {nm}")
            continue
        old, new, at = got
        mm = re.match(rf"^{re.escape(name)} (\S+)((?: \S+)*?) =", clauses)
        if not mm:
            f.left.append(f"clauses of {nm}")
            continue
        var = mm[1]
        more = "".join(" " + x for x in mm[2].split() if x != "κs")
        b = clauses[mm.end():]
        if b.strip() == "search rules":
            continue
        asked = j["asked"].get(old) or j["asked"].get(old.replace("_", "-")) or next((v for k, v in j["asked"].items() if norm(k) == norm(old)), None)
        b = body(f, b, var, f.place(at) if at else None, new)
        if asked and len(asked) > 1:
            lets = ""
            mlet = re.match(r"^\s*((?:let .* in\s*)*)([\s\S]*)$", b)
            parts = fields_of(asked, mlet[2])
            if parts and "elim" not in mlet[1]:
                parts = [(n, p) for n, p in parts]
                b = " " + mlet[1] + "record { " + "; ".join(f"{n} = {p}" for n, p in parts) + " }"
            else:
                f.left.append(f"record of {new}")
        out_ans.append("\n".join(note + [f"pub {new} : goal.{new}"] + unf + [f"{new} {var}{more} ={b}"]))
    # helpers over places
    places = set()
    outh = []
    for h in helpers:
        def typed(m):
            p = f.place(m[1])
            if not p:
                f.left.append("place " + m[1])
                return m[0]
            new = f.nameable(p)
            places.add(new)
            return new
        sigs = re.findall(r"\((\w+) : (?:lts|tie)\.([\w-]+)", h)
        h2 = h
        if sigs:
            var, pl = sigs[0]
            p = f.place(pl)
            if p:
                lines = h.split("\n")
                k = 1
                while k < len(lines) and lines[k].startswith(" "):
                    k += 1
                k0 = next((q for q, l in enumerate(lines) if not l.startswith("--")), 0)
                h2 = body(f, h, var, p, None)
        h2 = re.sub(r"(?:lts|tie)\.((?:At|After|Then|Else|In|Start|Left|Known)[\w-]*)((?: (?:reads|tie)\.\w+| invariant-\w+| decreases-\w+)*)", typed, h2)
        outh.append(h2)
    uses = [u for u in "\n".join(uses).split("\nuse ")]
    uses = [u if u.startswith("use ") else "use " + u for u in uses]
    own = f"Rattle.{crate}.proofs.{fpath.replace('/', '.')}"
    uses = [u for u in uses if not re.search(re.escape(own) + r"\.(Tie|Statement|Reads|Lts)\b", u)]
    d = out or os.path.dirname(file)
    places |= f.named
    inv_helpers = []
    if out_inv:
        text_inv = "\n\n".join(out_inv)
        need_more = True
        chosen = []
        while need_more:
            need_more = False
            for h in outh:
                nm = re.search(r"^(?:abbrev )?(?:pub )?(?:unfoldable )?(\S+) :", "\n".join(l for l in h.split("\n") if not l.startswith("--")))
                if nm and h not in chosen and re.search(rf"(?<![\w.'-]){re.escape(nm[1])}(?![\w'-])", text_inv + "\n".join(chosen)):
                    chosen.append(h)
                    need_more = True
        inv_helpers = [h for h in outh if h in chosen]
    names_inv = []
    for h in inv_helpers:
        nm = re.search(r"^(?:abbrev )?(?:pub )?(\S+) :", "\n".join(l for l in h.split("\n") if not l.startswith("--")))
        names_inv.append(nm[1])
    outh = [h for h in outh if h not in inv_helpers]
    if out_inv:
        def pubbed(h):
            return re.sub(r"(?m)^(abbrev |unfoldable )?(?!pub )(\S+) :", lambda m: f"{m[1] or ''}pub {m[2]} :", h, count=1) if "pub " not in h.split(" :")[0] else h
        inv = "\n".join(comments[:1] + uses + [f"use {own}.Given as goal"]) + "\n\n" + "\n\n".join([pubbed(h) for h in inv_helpers] + out_inv) + "\n"
        open(os.path.join(d, "Invariants.antt"), "w", encoding="utf-8").write(inv)
    if out_ans or (outh and out_ans):
        cited = [n for n in names_inv if re.search(rf"(?<![\w.'-]){re.escape(n)}(?![\w'-])", "\n".join(out_ans + outh))]
        more = [f"use {own}.Invariants.{{{', '.join(cited)}}}"] if cited else []
        pls = [f"use {own}.Goals.{{{', '.join(sorted(places))}}}"] if places else []
        ans = "\n".join((comments if not out_inv else comments[1:]) + uses + more + [f"use {own}.Goals as goal"] + pls) + "\n\n" + "\n\n".join(outh + out_ans) + "\n"
        open(os.path.join(d, "Answers.antt"), "w", encoding="utf-8").write(ans)
    # a parameter keeps its spelling in the source
    params = {x.replace("_", "-"): x for xs in j["params"].values() for x in xs if "_" in x}
    for name in ("Invariants.antt", "Answers.antt"):
        made = os.path.join(d, name)
        if os.path.isfile(made):
            with open(made, encoding="utf-8") as it:
                tidy = re.sub(r"=\n[ \t]+\n", "=\n", it.read())
            for old, kept in params.items():
                tidy = re.sub(rf"\.{old}(?![\w-])", f".{kept}", tidy)
            with open(made, "w", encoding="utf-8") as it:
                it.write(tidy)
    if not out:
        os.remove(file)
    for l in f.left:
        print(f"left: {file}: {l}")


def main():
    names, crates = sys.argv[1], sys.argv[2:]
    for crate in crates:
        at = os.path.join(names, crate, "names.json")
        if not os.path.isfile(at):
            print(f"left: no names for {crate}")
            continue
        with open(at, encoding="utf-8") as it:
            j = json.load(it)
        top = f"crates/{crate}/proofs"
        for d, _, files in sorted(os.walk(top)):
            if "Proof.antt" in files:
                file = os.path.join(d, "Proof.antt")
                if "Tie as tie" not in open(file, encoding="utf-8").read():
                    print(f"left: {file}: by hand")
                    continue
                fpath = os.path.relpath(d, top)
                key = f"Rattle-{crate}-proofs.{fpath.replace('/', '.')}.Lts"
                if key not in j:
                    print(f"left: {file}: no names")
                    continue
                turn(file, j[key], crate, fpath)


if __name__ == "__main__":
    main()
