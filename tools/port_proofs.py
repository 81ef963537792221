#!/usr/bin/env python3
"""Turns proofs/F/Proof.antt of the older form, `tie.close (tie.spec ..)`, into Invariants.antt and Answers.antt.

usage: python3 tools/port_proofs.py CRATE NAMES.json

NAMES.json is what `rt check --generated DIR --old-names` writes in the crate's folder. An answer that says only what the check tries
itself (`omega arith`, `search rules`) is dropped. What does not fit the form is printed and left as it is.
"""
import json
import os
import re
import sys

TRIVIAL = {"omega arith", "search rules", "tt", "search (rules)", "(omega arith)", "refl"}
ID = re.compile(r"[^\s(){}\[\],;.:=\"]+")


def norm(s):
    return s.replace("-", "_")


def chunks(text):
    """Top-level items: (comments, lines)."""
    out, comments, cur = [], [], None
    for line in text.split("\n"):
        if line.startswith("--") or (line.strip() == "" ):
            if cur is not None:
                out.append((comments, cur))
                comments, cur = [], None
            comments.append(line)
        elif line[0] in " \t)":
            if cur is None:
                raise ValueError("stray line " + line)
            cur.append(line)
        else:
            if cur is not None:
                out.append((comments, cur))
                comments = []
            cur = [line]
    if cur is not None:
        out.append((comments, cur))
        comments = []
    return out, comments


def name_of(line):
    w = line.split()
    while w and w[0] in ("abbrev", "pub", "unfoldable"):
        w.pop(0)
    return w[0] if w else ""


def grouped(items):
    """Joins a signature with its unfolding line and its equations."""
    out = []
    for comments, lines in items:
        first = lines[0]
        if first.startswith("use ") or first.startswith("pub use "):
            out.append({"kind": "use", "c": comments, "l": lines})
            continue
        n = name_of(first)
        if out and out[-1]["kind"] == "decl" and not any(x.strip() for x in comments):
            last = out[-1]
            if first.startswith("unfolding ") and last["eq"] is None:
                last["unf"] = lines
                continue
            if n == last["name"] and re.match(r"^(abbrev |pub )*\S+\s*(:|[({].*:)", first) is None or (n == last["name"]):
                last["eq"] = (last["eq"] or []) + lines
                continue
        out.append({"kind": "decl", "c": comments, "name": n, "sig": lines, "unf": None, "eq": None, "rec": first.startswith(("record", "pub record", "data", "pub data"))})
    return out


def args_of(text):
    """Splits an application's arguments."""
    out, i, n = [], 0, len(text)
    while i < n:
        if text[i].isspace():
            i += 1
            continue
        j, depth = i, 0
        while j < n:
            ch = text[j]
            if ch in "([{":
                depth += 1
            elif ch in ")]}":
                if depth == 0:
                    break
                depth -= 1
            elif ch.isspace() and depth == 0:
                break
            j += 1
        if j == i:
            break
        out.append(text[i:j])
        i = j
    return out, text[i:]


def split_top(text, sep=","):
    out, depth, cur = [], 0, ""
    for ch in text:
        if ch in "([{":
            depth += 1
        elif ch in ")]}":
            depth -= 1
        if ch == sep and depth == 0:
            out.append(cur)
            cur = ""
        else:
            cur += ch
    out.append(cur)
    return [x.strip() for x in out if x.strip()]


def whole_paren(t):
    t = t.strip()
    if not (t.startswith("(") and t.endswith(")")):
        return None
    d = 0
    for i, ch in enumerate(t):
        if ch == "(":
            d += 1
        elif ch == ")":
            d -= 1
            if d == 0 and i < len(t) - 1:
                return None
    return t[1:-1].strip()


def flat(t, n):
    """The n parts of a right-nested tuple, or None."""
    out = []
    while len(out) < n:
        inner = whole_paren(t)
        parts = split_top(inner) if inner is not None else None
        if parts is None or len(parts) < 2:
            out.append(t)
            break
        if len(out) + len(parts) >= n:
            out += parts
            break
        out += parts[:-1]
        t = parts[-1]
    return out if len(out) == n else None


def plain(t):
    return re.sub(r"\s+", " ", t.strip())


WORDRE = r"(?<![\w.'-])%s(?![\w'-])"


def atom(text, i):
    """The argument that begins at i, after blanks: (start, end)."""
    n = len(text)
    while i < n and text[i].isspace():
        i += 1
    j, depth = i, 0
    while j < n:
        ch = text[j]
        if ch in "([{":
            depth += 1
        elif ch in ")]}":
            if depth == 0:
                break
            depth -= 1
        elif depth == 0 and (ch.isspace() or ch in ",;"):
            break
        j += 1
    return i, j


def flatten(text, var, same):
    """Says all facts of `var` itself: places that stand before, and names for them, are `var`."""
    same = [n for n in same if not re.search(r"let " + re.escape(n) + r"\s*=", text)]
    for _ in range(60):
        old = text
        text = re.sub(r"(?:\.before)+(?![\w-])", "", text)
        for name in same:
            m = re.search(WORDRE % re.escape(name) + r"(?= +[^ =])", text)
            while m:
                i, j = atom(text, m.end())
                text = text[: m.start()] + text[i:j] + text[j:]
                m = re.search(WORDRE % re.escape(name) + r"(?= +[^ =])", text)
        text = re.sub(r"\((" + re.escape(var) + r")\)", r"\1", text)
        m = re.search(r"let ([^\s=:]+)\s*=\s*" + re.escape(var) + r"\s+in\b\s*", text)
        if m:
            x = m.group(1)
            rest = text[m.end():]
            rest = re.sub(WORDRE % re.escape(x), lambda _: var, rest) if x != var else rest
            text = text[: m.start()] + rest
        if text == old:
            return text
    return text


def pass_places(text, var, cur, place, lemmas):
    """Gives each lemma over a place the record of that place."""
    for name, (at, pos) in lemmas.items():
        k = 0
        while True:
            m = re.compile(WORDRE % re.escape(name)).search(text, k)
            if not m:
                break
            k = m.end()
            i = m.end()
            for _ in range(pos + 1):
                i, j = atom(text, i)
                if _ < pos:
                    i = j
            if text[i:j] == var and at != place and cur:
                new = f"(goal.at.{cur} {var}).{at}"
                text = text[:i] + new + text[j:]
                k = i + len(new)
    return text


class Names:
    def __init__(self, of):
        self.of = of
        self.needs = {norm(a): b for a, b in of["needs"]}
        self.order = [b for a, b in of["needs"]]
        self.steps, self.places = {}, {}
        for (place, prev, step, callee, extra), new in zip(of["places"], of["places_by_name"]):
            if step[0]:
                self.steps[norm(step[0])] = step[1]
            self.places[norm(place)] = new
        self.loops = {}
        for group in [of["loops"]]:
            pass
        self.loop_names = [(l[0], l[1]) for l in of["loops"]]
        for old, new in (l[0] for l in of["loops"]):
            self.loops[norm(old)] = new
            self.steps[norm(old)] = new

    def need(self, old):
        return self.needs.get(norm(old))


def respell(text, names, notes, live=False):
    loops = set(re.findall(r"let (\S+) = [^=]*?\.loop[-\w]* in", text)) | ({"l"} if live else set())

    text = re.sub(r"\.(\w+)_lem(?=\.(?:ensures|result|new|auto|captures))", r".\1", text)
    text = re.sub(r"\.inv(?![\w-])", ".invariant", text)
    for arm in names.of.get("arms") or []:
        for field, old, sub in (arm[2] if arm else []):
            if sub:
                text = re.sub(r"\." + re.sub(r"[-_]", "[-_]", re.escape(old).replace("\\-", "-")) + "".join(r"\." + re.escape(x) for x in sub) + r"(?![\w'-])", f".{arm[0]}.{field}", text)

    def path(m):
        base, before, f = m.group(1), m.group(2), m.group(3)
        if base in loops and not before:
            return m.group(0)
        k = norm(f)
        new = names.steps.get(k)
        # a name of Rattle's own, as `slots-1`, never stands for a field's name
        if new is None or (new.endswith("-1") and not f.endswith("1")):
            return m.group(0)
        return base + before + "." + new

    text = re.sub(r"(?<![\w.'-])((?:[A-Za-z_][^\s(){}\[\],;.:=\"]*|\)))((?:\.before)*)\.([A-Za-z][^\s(){}\[\],;.:=\"]*)", path, text)
    # an array that was read in place had a name of Rattle's own among the arguments
    for pair in names.of.get("args") or []:
        old, new = pair[0].replace(" ", ""), pair[1].replace(" ", "")
        text = re.sub(re.escape(old) + r"(?![\w'-])", new, text)

    def tie(m):
        n = m.group(1)
        if n.startswith("Need-"):
            new = names.need(n[5:])
            if new is None:
                notes.append("no need " + n)
                return m.group(0)
            return "goal." + new
        if n.startswith("invariant-") or n.startswith("decreases-"):
            head, l = n.split("-", 1)
            new = names.loops.get(norm(l))
            if new is None:
                notes.append("no loop " + n)
                return m.group(0)
            return f"goal.{head}-{new}"
        new = names.places.get(norm(n))
        if new is None:
            notes.append("no place " + n)
            return m.group(0)
        names.used.add(new)
        return new

    text = re.sub(r"(?<!\.requires)\.(?:well-formed|good)(?![\w-])", ".well_formed", text)
    for (place_, prev_, step_, callee_, extra_) in names.of["places"]:
        ps = names.of["params"].get(callee_) if callee_ else None
        if not ps:
            continue

        def given(m, ps=ps):
            ks = [k for k in m.group(3).split(".") if k]
            j = 0
            while ks and j < len(ps) - 1 and ks[0] == "1":
                ks.pop(0)
                j += 1
            if not ks or ks[0] != "0":
                return m.group(0)
            ks.pop(0)
            return f".{m.group(1)}.{m.group(2)}." + ".".join([ps[j]] + ks)
        for spelled in {step_[0], step_[1]}:
            text = re.sub(r"\.(" + re.sub(r"[-_]", "[-_]", spelled) + r")\.(new|last|auto)((?:\.[0-9]+)+)(?![\w-])", given, text)
    pre = names.of.get("pre")
    if pre:
        fs = pre["fields"]
        def field(m):
            ks = [k for k in m.group(1).split(".") if k]
            j = 0
            while ks and j < len(fs) - 1 and ks[0] == "1":
                ks.pop(0)
                j += 1
            if j < len(fs) - 1:
                if not ks or ks[0] != "0":
                    notes.append("pre: " + m.group(0))
                    return m.group(0)
                ks.pop(0)
            return ".requires." + ".".join([fs[j]] + ks)
        text = re.sub(r"\.(?:pre|requires)((?:\.[0-9]+)+)", field, text)
        if re.search(r"\.pre(?![\w.-])", text):
            notes.append("pre as a whole: " + ", ".join(fs))
    else:
        text = re.sub(r"\.pre(?![\w-])", ".requires", text)
    text = re.sub(r"(?:tie|lts)\.([^\s(){}\[\],;.:=\"]+)(?: \(calls t\) \(here t\) \w+\.Post)?(?: reads\.Pre reads\.Post)?(?: (?:invariant|decreases)-[^\s(){}\[\],;.:=\"]+)*", tie, text)
    return text


def tokens(text):
    return set(re.findall(r"[^\s(){}\[\],;.:\"]+", re.sub(r"--[^\n]*", "", text)))


def convert(path, key, of, crate, module):
    notes = []
    names = Names(of)
    names.used = set()
    with open(path, encoding="utf-8") as f:
        text = f.read()
    items, tail = chunks(text)
    items = grouped(items)
    uses = [i for i in items if i["kind"] == "use"]
    decls = [i for i in items if i["kind"] == "decl"]
    final = decls[-1]
    body = re.sub(r"(?m)^\s+--[^\n]*\n", "", "\n".join(final["eq"] or []))
    cycle = ".+" in module or module.startswith("+")
    m = re.search(r"(?:tie|lts)\.spec\b", body)
    if not m or not re.match(r".*[_-]spec$", final["name"]):
        return ["not of the form: " + final["name"]]
    args, rest = args_of(body[m.end():])
    spec_unf = final["unf"]
    if cycle:
        args = args[3:]
    by = {d["name"]: d for d in decls}
    # leading invariants and measures
    inv = []
    while args and args[0] in by and re.search(r"tie\.(invariant|decreases)-", " ".join(by[args[0]]["sig"])):
        inv.append(args.pop(0))
    answers = {}
    if len(args) != len(names.order):
        notes.append(f"{len(args)} answers for {len(names.order)} needs: " + ", ".join(names.order))
        if "--force" not in sys.argv:
            return notes
    pair = list(zip(args, names.order)) if len(args) == len(names.order) else []
    if not pair:
        # by declared type alone
        for a in args:
            d = by.get(a)
            t = re.search(r"tie\.Need-([^\s(){}\[\],;.:=\"]+)", " ".join(d["sig"])) if d else None
            if t and names.need(t.group(1)):
                pair.append((a, names.need(t.group(1))))
            else:
                notes.append("dropped: " + a)
    renames = {}
    direct = []
    for a, goal in pair:
        if a in by:
            d = by[a]
            if re.search(r"tie\.Need-", " ".join(d["sig"])):
                renames.setdefault(a, []).append(goal)
                continue
            direct.append((goal, "c", a + " c", None))
            continue
        inner = whole_paren(a)
        m2 = re.match(r"λ ([^.]*)\.\s*(.*)$", inner or a, re.S)
        if not m2:
            direct.append((goal, "c", (inner or a) + (" t c" if cycle else " c"), None))
            continue
        vs = m2.group(1).split()
        b = re.sub(r"\s*\n\s*", " ", m2.group(2)) if "record" not in m2.group(2) else m2.group(2)
        if len(vs) > 1 and re.search(r"(?<![\w-])" + re.escape(vs[1]) + r"(?![\w-])", b):
            notes.append(f"{goal} uses {vs[1]}")
        direct.append((goal, vs[0], b, spec_unf))
    out_inv, out_ans = [], []
    loops = {l[0][1]: (l[1], ch) for l, ch in zip(of["loops"], of["changed"])}
    kept = []
    for d in decls[:-1]:
        if cycle and d["name"] in ("here", "calls"):
            continue
        if cycle and re.search(r": Measures \d+ kinds\.ps", d["sig"][0]):
            f = module.rsplit("+", 1)[1]
            out_inv.append((d["c"], f"abbrev pub decreases-{f} : goal.decreases-{f}", None, f"decreases-{f} l = l.{d['name']}"))
            continue
        sig = "\n".join(d["sig"])
        t = re.search(r"tie\.(invariant|decreases)-([^\s(){}\[\],;.:=\"]+)", sig)
        if t and d["name"] in inv or (t and re.match(r"abbrev (pub )?\S+ : tie\.(invariant|decreases)-\S+$", sig)):
            kind, old = t.group(1), t.group(2)
            new = names.loops.get(norm(old))
            if new is None:
                notes.append("no loop " + old)
                continue
            vars_, changed = loops[new]
            eq = "\n".join(d["eq"])
            lhs, rhs = eq.split("=", 1)
            params = lhs.split()[1:]
            want = []
            for v, c in zip(vars_, changed):
                want.append(("l.initial." if c else "l.") + v)
            for v, c in zip(vars_, changed):
                if c:
                    want.append("l." + v)
            if len(want) != len(params):
                notes.append(f"{kind}-{new}: {len(params)} parameters for {len(want)}: {params} {want}")
            sub = {p: w for p, w in zip(params, want) if p != "_"}
            def rep(m, sub=sub):
                return sub.get(m.group(0), m.group(0))
            rhs = re.sub(r"(?<![\w'.₀-₉-])[^\s(){}\[\],;.:=\"]+", rep, rhs)
            out_inv.append((d["c"], f"abbrev pub {kind}-{new} : goal.{kind}-{new}", d["unf"], f"{kind}-{new} l ={rhs}"))
            continue
        if d["name"] in renames:
            goals = renames[d["name"]]
            for goal in goals:
                eq = "\n".join(d["eq"] or [])
                eq = re.sub(r"(?m)^" + re.escape(d["name"]) + r"(?![\w'-])((?: [^\s=]+)*?) =", lambda m: goal + " " + (m.group(1).split() or ["c"])[0] + " =", eq)
                out_ans.append((d["c"] if goal == goals[0] else [""], f"pub {goal} : goal.{goal}", d["unf"], eq, goal))
            continue
        kept_text = sig
        out_ans.append((d["c"], sig, d["unf"], "\n".join(d["eq"] or []), None))
    for goal, v, b, unf in direct:
        if cycle:
            v = "t " + v
        if re.sub(r"\s+", " ", b.strip()) in TRIVIAL:
            # under `unfolding` the check does not open the definition itself
            if unf and (goal.startswith("returns") or goal.endswith(("preserved", "init"))):
                pass
            else:
                continue
        out_ans.append(([""], f"pub {goal} : goal.{goal}", unf, f"{goal} {v} = {b}", goal))
    asked = {names.need(k) or k: v for k, v in of["asked"].items()}
    final_ans = []
    for c, sig, unf, eq, goal in out_ans:
        if goal in asked and len(asked[goal]) > 1:
            fields = asked[goal]
            lhs, rhs = eq.split(" =", 1)
            var = " ".join(lhs.split()[1:])
            lets, r = "", rhs.strip()
            mm = re.match(r"((?:let .*? in\s+)+)(\(.*)$", r, re.S)
            if mm and whole_paren(mm.group(2)):
                lets, r = mm.group(1), mm.group(2)
            parts = None
            for n in range(len(fields), 1, -1):
                parts = flat(r, n)
                if parts and (n == len(fields) or plain(parts[-1]) in TRIVIAL):
                    break
                parts = None
            if parts and len(parts) < len(fields):
                parts += [parts[-1]] * (len(fields) - len(parts))
            if parts and (not lets or sum(plain(p) not in TRIVIAL for p in parts) == 1):
                first = True
                for f, p in zip(fields, parts):
                    if plain(p) in TRIVIAL:
                        continue
                    g = f"{goal}-clause-{f}"
                    final_ans.append((c if first else [""], f"pub {g} : goal.{g}", unf, f"{g} {var} = {lets}{p}"))
                    first = False
                continue
            if parts:
                eq = lhs + " = " + lets + "record { " + "; ".join(f"{f} = {p}" for f, p in zip(fields, parts)) + " }"
            else:
                notes.append(f"{goal}: its parts {fields} are not written: {r[:60]}")
        final_ans.append((c, sig, unf, eq))

    # all facts of one record
    asked_at = dict(zip(names.order, [b for a, b in of["asked_at"]]))
    place_of = lambda old: names.places.get(norm(old))
    same, lemmas = [], {}
    for d in decls[:-1]:
        sig1 = re.sub(r"(?: (?:invariant|decreases)-[^\s()]+)+| reads\.Pre reads\.Post", "", " ".join(" ".join(d["sig"]).split()))
        m1 = re.match(r"(?:abbrev )?(\S+) : (?:\(\w+ : )?(?:tie|lts)\.([A-Z][^\s()]*)\)? → (?:tie|lts)\.([A-Z][^\s()]*)$", sig1)
        if m1 and not m1.group(2).startswith("Need"):
            same.append(d["name"])
            continue
        m2 = re.search(r": (.*?)(?:tie|lts)\.((?:After|Else|Then|Start|At|In|Joined)[^\s()]*)", sig1)
        if m2 and place_of(m2.group(2)):
            before = re.sub(r"\{[^}]*\}", "", m2.group(1))
            pos = sum(len(g.split()) for g in re.findall(r"\(([^():]*) :", before[: before.rfind("(")] if "(" in before else ""))
            lemmas[d["name"]] = (place_of(m2.group(2)), pos)
    flat_rows = []
    for c, sig, unf, eq in final_ans:
        name = name_of(sig)
        if name in same:
            continue
        lhs = eq.split(" =", 1)[0].split()
        if name in lemmas:
            place, pos = lemmas[name]
            m3 = re.search(r"\(([^():]*) : (?:tie|lts)\.(?:After|Else|Then|Start|At|In|Joined)", sig)
            sigvar = m3.group(1).strip() if m3 else None
            var = lhs[1 + pos] if len(lhs) > 1 + pos else (sigvar or "c")
            cur = place
        else:
            goal = re.sub(r"-clause-.*$", "", name)
            place, cur, var, sigvar = asked_at.get(goal), name if goal in asked_at else None, lhs[-1] if len(lhs) > 1 else "c", None
            cur = name if goal in asked_at else None
        if sigvar:
            sig = pass_places(flatten(sig, sigvar, same), sigvar, cur, place, lemmas)
        head_, body_ = eq.split(" =", 1) if " =" in eq else (eq, "")
        body_ = pass_places(flatten(body_, var, same), var, cur, place, lemmas)
        flat_rows.append((c, sig, unf, head_ + " =" + body_))
    final_ans = flat_rows

    def block(rows):
        s = []
        for c, sig, unf, eq in rows:
            lines = [x for x in c if x.strip()]
            s.append("\n".join(lines + [sig] + (unf or []) + ([eq] if eq else [])))
        return "\n\n".join(s)

    head = [x for x in (items[0]["c"] if items else []) if x.startswith("--")]
    inv_text = respell(block(out_inv), names, notes, True)
    ans_text = respell(block(final_ans), names, notes)
    ans_text = re.sub(r"(?<![\w.'-])tie\b", "goal", ans_text)
    # the test of `!f(..)`: its facts are now the call's own result, not its opposite
    calls = {r[2][1] for r in of["places"] if ["fact", "true"] in r[4] or ["fact", "false"] in r[4]}

    def call(m):
        return "if-not-" + m.group("f") in calls

    for old_, new_ in (("left", "false"), ("taken", "true")):
        ans_text = re.sub(r"(\.(?:if|loop)-[\w-]+)\." + old_ + r"(?![\w-])", r"\1." + new_, ans_text)
    test = r"(?P<t>(?:\([\w' .-]*\)|[\w'-]+)(?:\.[\w'-]+)*\.if-not-(?P<f>[\w-]+)\.(?:true|false))"
    ans_text = re.sub(r"not-(?:true|false) _ " + test, lambda m: m.group("t") + "#" if call(m) else m.group(0), ans_text)
    ans_text = re.sub(
        r"ap not \((?P<e>sym [\w.'-]+)\)(?P<s>\s*∙\s*)" + test,
        lambda m: f"ap not ({m.group('e')}{m.group('s')}{m.group('t')}#)" if call(m) else m.group(0), ans_text)
    more = ans_text
    ans_text = re.sub(test + r"(?!#)", lambda m: f"(ap not {m.group('t')})" if call(m) else m.group(0), ans_text)
    more = ["ap", "not"] if ans_text != more else []
    ans_text = ans_text.replace("#", "")

    def imports(body):
        have = tokens(body)
        ops = set(re.findall(r"[^\s\w(){}\[\],;.:\"]+", body))
        rows = []
        for u in uses:
            line = " ".join(" ".join(u["l"]).split())
            if line.startswith("use Rattle.lists.proofs.Kit.{"):
                line = line[:-1] + "".join(", " + n for n in more if not re.search(r"[{ ]" + n + "[,}]", line)) + "}"
            if cycle and re.search(r"borrow\.Fn\.(Kinds|PlainCycle)|\.Reads as |\.Kinds as |\.Lts-\S+ as |\.\{statement\}", line):
                continue
            if re.search(r"\.Reads as reads$|\.Lts as lts$", line):
                continue
            if ".Statement" in line or line.endswith(".Tie as tie") or ".Tie." in line:
                continue
            m = re.match(r"(use [^{]+\.)\{(.*)\}$", line)
            if not m:
                rows.append(line)
                continue
            ns = []
            for n in m.group(2).split(","):
                n = n.strip()
                shown = n.split(" as ")[-1].strip()
                core = shown.replace("◌", "")
                if shown in have or core in have or core in ops or (core == "[]" and re.search(r"(?<!\w)\[\]", body)) or (core and "◌" in shown and core in body):
                    ns.append(n)
            if ns:
                rows.append(m.group(1) + "{" + ", ".join(ns) + "}")
        return rows

    folder = os.path.dirname(path)
    full = f"Rattle.{crate}.proofs.{module}"
    written = []
    if out_inv:
        t = "\n".join(head + imports(inv_text) + [f"use {full}.Given as goal", "", inv_text, ""])
        with open(os.path.join(folder, "Invariants.antt"), "w", encoding="utf-8") as f:
            f.write(t)
        written.append("Invariants")
    if final_ans:
        rows = imports(ans_text)
        rows.append(f"use {full}.Goals as goal")
        used = sorted(names.used)
        used = [u for u in used if re.search(r"(?<![\w-])" + re.escape(u) + r"(?![\w-])", ans_text)]
        if used:
            rows.append(f"use {full}.Goals.{{{', '.join(used)}}}")
        t = "\n".join(head + rows + ["", ans_text, ""])
        with open(os.path.join(folder, "Answers.antt"), "w", encoding="utf-8") as f:
            f.write(t)
        written.append("Answers")
    os.remove(path)
    return notes


def main():
    crate, listed = sys.argv[1:3]
    data = json.load(open(listed, encoding="utf-8"))
    root = os.path.join("crates", crate, "proofs")
    for folder, dirs, files in os.walk(root):
        if "Proof.antt" not in files:
            continue
        path = os.path.join(folder, "Proof.antt")
        module = os.path.relpath(folder, root).replace(os.sep, ".")
        key = f"Rattle-{crate}-proofs.{module}.Lts"
        if key not in data:
            base = module.rsplit("+", 1)
            if len(base) == 2 and f"Rattle-{crate}-proofs.{module}.Lts-{base[1]}" in data:
                key = f"Rattle-{crate}-proofs.{module}.Lts-{base[1]}"
        if key not in data:
            cand = [k for k in data if k.startswith(f"Rattle-{crate}-proofs.{module}")]
            print(f"{path}: no names ({cand})")
            continue
        try:
            for n in convert(path, key, data[key], crate, module):
                print(f"{path}: {n}")
        except Exception as e:
            print(f"{path}: {type(e).__name__}: {e}")


if __name__ == "__main__":
    main()
