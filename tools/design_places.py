#!/usr/bin/env python3
"""Places of docs/DESIGN-PASS.md in crates/*/src: design_places.py POINT [-l] counts them, and with -l lists them. Run it at the top of the checkout.

1 results by hand, 2 twins, 3 loops that count, 4 conversions and tests by hand, 5 what travels together, 6 arrays with a length beside, 7 steps chosen by a code."""
import collections
import glob
import os
import re
import sys

KEYWORDS = set("""as break const continue crate else enum extern false fn for if impl in let loop match mod move mut pub ref return self Self static struct
super trait true type unsafe use where while bool u8 u16 u32 u64 i64 usize""".split())


def sources():
    for path in sorted(glob.glob("crates/*/src/**/*.rt", recursive=True)):
        with open(path) as f:
            yield path, f.read().split("\n")


def code(line):
    return line.split("//")[0].rstrip()


class Fn:
    def __init__(self, path, line, name, params, result, clauses, body):
        self.path, self.line, self.name, self.params = path, line, name, params
        self.result, self.clauses, self.body = result, clauses, body

    def at(self):
        return f"{self.path}:{self.line}: {self.name}"


def functions():
    for path, lines in sources():
        i = 0
        while i < len(lines):
            m = re.match(r"(\s*)(?:pub(?:\([a-z]+\))? )?(?:unsafe )?(?:extern \"C\" )?fn (\w+)", code(lines[i]))
            if not m:
                i += 1
                continue
            indent, start = m.group(1), i
            head = []
            while not (code(lines[i]) == indent + "{" or code(lines[i]).endswith("{") and not re.match(r"\s*(requires|ensures)", lines[i])):
                head.append(code(lines[i]))
                i += 1
            head.append(re.sub(r"\{$", "", code(lines[i])))
            one_line = code(lines[i]).endswith("}")
            j = i + 1
            body = []
            while not one_line and code(lines[j]) != indent + "}":
                body.append(code(lines[j]))
                j += 1
            text = "\n".join(head)
            opened = text.index("(", text.index("fn " + m.group(2)))
            depth, k = 0, opened
            while True:
                depth += {"(": 1, ")": -1}.get(text[k], 0)
                if depth == 0:
                    break
                k += 1
            params = [" ".join(p.split()) for p in re.split(r",(?![^\[\](<]*[\]>)])", text[opened + 1:k]) if p.strip()]
            rest = text[k + 1:]
            cut = re.search(r"\n\s*(requires|ensures|where)\b", rest)
            result = (rest[:cut.start()] if cut else rest).replace("->", "").strip()
            clauses = rest[cut.start():] if cut else ""
            yield Fn(path, start + 1, m.group(2), params, result, clauses, "\n".join(body))
            i = j + 1


def lines_like(pattern):
    return [f"{p}:{n}: {l.strip()}" for p, ls in sources() for n, l in enumerate(ls, 1) if re.search(pattern, code(l))]


def items(kind):
    for path, lines in sources():
        for n, l in enumerate(lines):
            m = re.match(rf"\s*(?:pub )?{kind} (\w+)", l)
            if m and code(l).endswith("{"):
                body = []
                for k in lines[n + 1:]:
                    if k.strip() == "}":
                        break
                    body.append(code(k))
                yield f"{path}:{n + 1}: {kind} {m.group(1)}", "\n".join(body)


def point1():
    found = [at for at, body in items("enum") if re.search(r"\b(Refused|Nowhere)\b", body)]
    flags = r"\b(number|told|there|found|fits|fine|sound|held|answer|failed|known|whole|right)\s*:\s*(bool|u64|Answer)\b"
    found += [at for at, body in items("struct") if re.search(flags, body)]
    found += lines_like(r"\.number\s*(!=|==)|!\w+(\.\w+)*\.(told|there|found|fits|fine|whole)\b|\bif \w+(\.\w+)*\.(told|there|found|fits|fine|whole)\b")
    found += lines_like(r"\b(Answer::(Done|Refused)|Number::(Is|Refused)|Sought::(At|Nowhere))\b")
    found += lines_like(r"\bnumber: \d+,|\brefused\(\d+")
    return found


def skeleton(fn):
    names, out = {}, []
    for t in re.findall(r"[A-Za-z_]\w*|\d[\w]*|b?'[^']*'|b?\"[^\"]*\"|[^\s\w]", " ".join(fn.params) + "|" + fn.result + "|" + fn.body):
        if t in KEYWORDS and t not in ("u8", "u16", "u32", "u64", "usize"):
            out.append(t)
        elif re.match(r"\d|b?['\"]|u8$|u16$|u32$|u64$|usize$", t):
            out.append("#")
        elif re.match(r"[A-Za-z_]", t):
            out.append("n%d" % names.setdefault(t, len(names)))
        else:
            out.append(t)
    return " ".join(out), len(out)


def point2():
    groups = collections.defaultdict(list)
    for f in functions():
        s, n = skeleton(f)
        if n >= 14:
            groups[s].append(f)
    found = []
    for g in groups.values():
        if len(g) > 1:
            found.append(" = ".join(f.at() for f in g))
    return found


def point3():
    return lines_like(r"^\s*('\w+: )?(while|loop)\b")


def point4():
    found = []
    for f in functions():
        body = " ".join(f.body.split())
        if re.fullmatch(r"\w+ as \w+", body):
            found.append(f.at() + ": a cast")
        elif f.name in ("none", "empty") and not re.search(r"\bif\b|\bmatch\b", body):
            found.append(f.at() + ": a value of zeros")
        elif re.fullmatch(r"if \w+ \{ return (1|u64::from\(\w+\)); \} 0", body) or re.fullmatch(r"if \w+ \{ return \w+; \} \w+", body):
            found.append(f.at() + ": a conversion or a choice")
        elif re.fullmatch(r"(area::same|sia::same_id|same_id)\(&?\w+, &?[\w:]+\)", body):
            found.append(f.at() + ": an equality")
        elif f.result == "bool" and re.match(r"(is|same|agrees|are)_?\w*$", f.name) and re.search(r"return (true|false);", body):
            found.append(f.at() + ": a test by steps")
    found += lines_like(r"#\[derive\(Clone, Copy\)\]$")
    return found


def point5():
    found = []
    requires = collections.defaultdict(list)
    for f in functions():
        for c in re.findall(r"requires(?: \w+)? \{(.*?)\}\s*(?=requires|ensures|$)", f.clauses, re.S):
            requires[" ".join(c.split())].append(f)
    for c, fs in requires.items():
        if len(fs) >= 3:
            found += [f"{f.at()}: requires {c}" for f in fs]
    together = collections.defaultdict(set)
    for f in functions():
        ps = [p for p in f.params if ":" in p]
        for a in range(len(ps)):
            for b in range(a + 1, len(ps)):
                for d in range(b + 1, len(ps)):
                    together[(ps[a], ps[b], ps[d])].add(f.at())
    many = set()
    for fs in together.values():
        if len(fs) >= 3:
            many |= fs
    found += [f"{at}: three parameters that two other functions take too" for at in sorted(many)]
    return found


def point6():
    found = []
    for at, body in items("struct"):
        if re.search(r"\[\w+; \w+\]", body) and re.search(r"\b(count|more|len|length|size|ran)\s*:\s*(u64|usize)", body):
            found.append(at)
    for f in functions():
        if any(re.search(r": (&mut )?\[[\w ]+; \w+\]$", p) for p in f.params) and any(re.match(r"(n|end|count|from): (usize|u64)$", p) for p in f.params):
            found.append(f.at() + ": an array and a number of its entries")
    return found


def point7():
    found = []
    for f in functions():
        for m in re.finditer(r"\bmatch (\w+(?:\.\w+|\[\w+\])*) \{(.*?)\n\s*\}", f.body, re.S):
            arms = re.findall(r"=>\s*([\w:]+)\(", m.group(2))
            if len(set(arms)) >= 3:
                found.append(f.at() + f": match {m.group(1)}")
        if len(re.findall(r"if \w+ == (b'.'|\d+) \{", f.body)) >= 3:
            found.append(f.at() + ": a chain of tests of a code")
    return found


def main():
    point = sys.argv[1]
    found = globals()["point" + point]()
    if "-l" in sys.argv:
        print("\n".join(found))
    print(f"point {point}: {len(found)}")


if __name__ == "__main__":
    os.chdir(os.environ.get("TOP", "."))
    main()
