#!/usr/bin/env python3
"""Lists the places that docs/DESIGN-PASS.md counts: usage: python3 tools/places.py POINT [TOP], at the top of a checkout; POINT is 1 to 8.
One line a place, `crate file:line sort what`, then the counts. It reads the text alone, by brackets and names, and rather lists too much:
a place that is today's form already, or none at all, may stand in the list. docs/DESIGN-PASS.md says what each sort is."""
import collections, difflib, glob, itertools, re, sys

POINT, TOP = sys.argv[1] if len(sys.argv) > 1 else "", sys.argv[2] if len(sys.argv) > 2 else "."
NUMBERS = ("u8", "u16", "u32", "u64", "usize")
REFUSAL = r"Refused|Bad|Stop|NotLoaded|Nothing|Full|Short|Long|Other|Beyond|Over|Fail|Err|None|Root|End"
FLAGS = set("bad whole running live flag state starred odd ended tag kind field high refusal next what opcode command sort operation list width how why negative".split())
ZERO = re.compile(r"\b[Tt]ag 0|[Pp]lace 0|\b0 (for|where|past|beyond)|\bor 0\b|\belse 0|\b0, or|is 1\b|\b255\b|for what is none|\b0 and 0|\+ 1, or|answer is false")
KEYWORDS = set("let mut if else match while for in return as true false loop self break continue".split())
GROUPS = ["store frames bounds pointers", "image labels functions", "image extents", "raw extents", "tags bits", "live frame allocation offset", "image n", "image c", "image out c",
          "line k", "out at", "registers answer", "image at", "image callee", "opcode how", "line image bytes out", "start count", "number place"]
Item = collections.namedtuple("Item", "crate place sort name head body result clauses comment first")
PLACES = []

def closing(text, at):  # the place after the bracket that closes the one at `at`
    deep = 0
    for i in range(at, len(text)):
        deep += (text[i] in "([{") - (text[i] in ")]}")
        if deep == 0:
            return i + 1
    return len(text)
def split(text, by=","):
    parts, deep, last = [], 0, 0
    for i, c in enumerate(text + by):
        deep += (c in "([{") - (c in ")]}")
        if c == by and deep == 0:
            parts.append(text[last:i].strip())
            last = i + 1
    return [p for p in parts if p]
def function(text, m):  # parameters, result, clauses, body and where the body begins, of the function that begins at a match
    start = re.compile(r"\s*(<(?:->|[^<>]|<(?:->|[^<>]|<[^<>]*>)*>)*>)?\s*\(").match(text, m.end()).end() - 1
    at = end = closing(text, start)
    clauses, to_brace = [], re.compile(r"(?:[^{;\[]|\[[^\]]*\])*")
    while re.search(r"\b(requires|ensures)\b", text[at:to_brace.match(text, at).end()]):
        brace = to_brace.match(text, at).end()
        at = closing(text, brace)
        clauses.append(text[brace + 1:at - 1].strip())
    brace = to_brace.match(text, at).end()
    result = re.split(r"\b(?:requires|ensures)\b|\{", text[end:brace + 1])[0].strip(" \n->")
    return text[start + 1:end - 1], result, clauses, text[brace + 1:closing(text, brace) - 1], brace
def items():  # every function, enum, struct and constant of crates/*/src; comments and text in quotes are blanked
    for path in sorted(glob.glob(f"{TOP}/crates/*/src/**/*.rt", recursive=True)):
        crate, file = path.split("/crates/")[1].split("/src/")
        raw, lines = (read := open(path).read()), read.split("\n")
        text = re.sub(r"//[^\n]*|b?\"(?:\\.|[^\"\\])*\"|b?'(?:\\.|[^'\\])'", lambda m: re.sub(r"[^\n]", " ", m[0]), raw)
        for m in re.finditer(r"\b(fn|enum|struct|const) (\w+)", text):
            line = above = text.count("\n", 0, m.start()) + 1
            while above > 1 and re.match(r"\s*(//|#\[)", lines[above - 2]):
                above -= 1
            comment, place = " ".join(lines[above - 1:line - 1]), (file, line)
            if m[1] == "fn":
                head, result, clauses, body, brace = function(text, m)
                yield Item(crate, place, "fn", m[2], head, body, result, clauses, comment, text.count("\n", 0, brace) + 1)
            elif m[1] == "const":
                c = re.compile(r"\s*:\s*(\[[^=]*?\]|[^=;>,]+?)\s*=\s*(\[[^\]]*\]|[^;]*);").match(text, m.end())
                if c:  # else a const parameter
                    yield Item(crate, place, "const", m[2], c[1], c[2], "", [], comment, line)
            else:
                start = re.compile(r"[^{(;]*").match(text, m.end()).end()
                end = closing(text, start)
                comment += " ".join(x.split("//")[1] for x in lines[line - 1:text.count("\n", 0, end)] if "//" in x)
                yield Item(crate, place, m[1], m[2], "", text[start + 1:end - 1], "", [], comment, line)
def add(item, sort, what, when=True, line=0):
    if when:
        PLACES.append((item.crate, item.place[0], line or item.place[1], sort, what))
def fields(item):  # names and types of a struct's fields or a function's parameters
    pairs = [re.match(r"(?:#\[[^\]]*\]\s*)?(?:pub\s+)?(?:mut\s+)?(\w+)\s*:\s*(.*)", p, re.S) for p in split(item.body if item.sort == "struct" else item.head)]
    return [(p[1], p[2]) for p in pairs if p]
def variants(item):
    return [(re.match(r"(?:#\[[^\]]*\]\s*)*(\w+)", v)[1], "(" in v or "{" in v) for v in split(item.body)] if item.sort == "enum" else []
def is_answer(item):
    return any(p for _, p in variants(item)) and any(not p or re.match(REFUSAL, n) for n, p in variants(item))

def point1():
    own = {i.name for i in ALL if is_answer(i)}
    zero = r"\breturn 0;|_\)? => 0,|else \{\s*0\s*\}|(?:^|[;}])\s*0\s*$|\breturn [A-Z_]{3,};|\b(\w+) != 0 \{\s*return \1;"
    found = {}
    for i in FNS * 4:
        calls = re.search(r"(?:^|[;}{]\s*)(?:\w+::)*(\w+)\s*\([^;]*\)\s*$", i.body)
        if i.result in NUMBERS + ("Field",) and (ZERO.search(i.comment) or re.search(zero, i.body) or calls and calls[1] in found.values()) or i.result == "bool" and "answer is false" in i.comment:
            found[i.crate, i.place] = i.name
    for i in ALL:
        v, numbers = variants(i), [(n, t) for n, t in fields(i) if t in NUMBERS + ("bool",)]
        add(i, "option-like" if len(v) == 2 and not all(p for _, p in v) else "result-like", f"{i.name} {{ {', '.join(n + '(..)' * p for n, p in v)} }}", is_answer(i))
        flags = [n for n, t in numbers if n in FLAGS or n in ("number", "pointer", "context", "to", "slots", "start", "first") and ZERO.search(i.comment)]
        flags += [n for n, t in fields(i) if t in own and not any(j.crate == i.crate and j.name == t and j.sort == "struct" for j in ALL)]
        add(i, "flag-struct", f"{i.name}: {', '.join(flags)}", i.sort == "struct" and flags)
        add(i, "zero-function", f"{i.name} -> {i.result}", (i.crate, i.place) in found)
        named = re.search(r"refus|_TAG|\btag\b|Is\(", i.name + i.comment + i.body, re.I)
        flags = [n for n, t in numbers if n in FLAGS - {"next"} or n == "number" and named]
        add(i, "flag-parameter", f"{i.name}({', '.join(flags)})", i.sort == "fn" and flags)
    for (_, _, sort, kind), run in itertools.groupby(ALL, lambda i: (i.crate, i.place[0], i.sort, i.head if i.sort == "const" else "")):
        family = [i for i in run if kind in ("u8", "u64") and not i.name.startswith("MAX_") and re.fullmatch(r"[\dxa-fA-F_]+", i.body) and int(i.body, 0) < 2 ** 31]
        if sort == "const" and family:
            add(family[0], "number-constants", f"{len(family)}: {', '.join(f.name for f in family)}")

def shape(body):  # the text with each name and number by the order in which it first stands, and all comparisons alike
    seen, words = {}, re.findall(r"\w+|<=|>=|==|!=|=>|[^\w\s]", body)
    return tuple(w if w in KEYWORDS else seen.setdefault(w, f"#{len(seen)}") if re.match(r"\w", w) else "?" if re.fullmatch(r"[<>]=?|[=!]=", w) else w for w in words)

def point2():
    group = list(range(len(ALL)))
    parts = [shape(i.body) if i.sort == "fn" else tuple(n for n, _ in variants(i) or fields(i)) for i in ALL]
    for (k, a), (l, b) in itertools.combinations(enumerate(ALL), 2):
        s, t, stems = parts[k], parts[l], re.sub(r"\d+", "", a.name) == re.sub(r"\d+", "", b.name)
        alike = {a.sort, b.sort} <= {"enum", "struct"} and (s == t or stems and a.crate == b.crate)
        if a.sort == b.sort == "fn":
            alike = s == t and (len(s) >= 24 or stems and len(s) >= 3)
            if not alike and (a.crate == b.crate or stems) and min(len(s), len(t)) >= max(30, 0.65 * len(s), 0.65 * len(t)):
                d = difflib.SequenceMatcher(None, s, t, False)
                alike = d.quick_ratio() > 0.8 and d.ratio() > 0.8
        group = [group[k] if g == group[l] else g for g in group] if alike else group
    for g in sorted(set(group)):
        first, *rest = [i for i, h in zip(ALL, group) if h == g]
        what = f"{len(rest) + 1}: {first.name}, " + ", ".join(m.name if m.crate == first.crate else f"{m.crate}::{m.name}" for m in rest)
        add(first, "twin-functions" if first.sort == "fn" else "twin-types", what, rest)

def point3():
    for i in FNS:
        for m in re.finditer(r"\b(while|loop)\b([^{]*)", i.body):
            sort = "count-down" if m[2].startswith(" 0 < ") else "index" if re.search(r"(\w+)( as u64\))? <=? .*\{.*\b\1 \+= 1", i.body[m.start():], re.S) else "other-while"
            add(i, sort, f"{i.name}: while{m[2].rstrip()}", True, i.first + i.body.count("\n", 0, m.start()))
        add(i, "recursion", i.name, re.search(rf"(?<![:.\w]){i.name}\([^;]*- 1", i.body))

def point4():
    for i in ALL:
        add(i, "no-derive", f"{i.sort} {i.name}", i.sort in ("enum", "struct") and "PartialEq" not in i.comment)
    for i in FNS:
        p, body = fields(i), i.body.strip()
        pairs = [x for (a, s), (b, t) in itertools.combinations(p, 2) if s == t for x in ((a, b), (b, a))]
        ordered = i.name in ("alike", "within", "words_within", "passes") or any(re.search(rf"\b{x}\b[\w.()\[\]]* (<=?|==|!=) {y}\b", body) for x, y in pairs)
        add(i, "equality-or-order", i.name, i.result == "Order" or i.result in NUMBERS + ("bool",) and ordered)
        add(i, "copy-or-fill", i.name, re.search(r"\b(while|for)\b.*\w+\[[^\]]*\] = (\w+\[[^\]]*\]|0|byte);", body, re.S))
        rebuilt = re.findall(r"\b(\w+): (\w+)\.\1\b", body) + (re.findall(r"let (\w+) = (\w+)\.\1;", body) if re.search(r"[A-Z]\w+ \{[^}]*\}\s*$", body) else [])
        listed = re.findall(r"\[[^\]]*\] = \w+\.\w+|\w+: (?:word\(\w+, |\w+\[)|put\(\w+, [^,]+, \w+\.\w+\)", body)
        add(i, "copied-by-field", i.name, len(rebuilt) > 1 or len(listed) > 2)
        m = re.match(r"match \w+ \{", body)
        whole = m and closing(body, m.end() - 1) == len(body) or re.fullmatch(r"\w+ as \w+|\w+\.\w+|[A-Z]+|let (\w+) = \w+\.\w+;\s*\1", body)
        two = len(split(i.head)) > 2 or pairs and p[0][1] not in NUMBERS or re.search(r"&mut|\brt\b|\bout\b", i.head)
        add(i, "conversion", f"{i.name} -> {i.result}", i.result and whole and not two)
        add(i, "number-as-digits", i.name, re.search(r"% 256\) as u8|\+ 256 \*|% 10\) as u8|\* 10 \+|\* 16 \+|glyph\(|% 128 \+ 128|\* weight", body))
        written = i.result == "Written" and re.search(r"\bout\b", i.head) and "start:" not in i.head
        add(i, "printing", i.name, written or "Print" in i.head and i.result.startswith("io::Result") or i.place[0] == "say.rt")

def point5():
    facts = collections.defaultdict(list)
    for i in FNS:
        names = {n for n, t in fields(i) if n != "n" or t == "Counts"}
        taken = [g for g in GROUPS if set(g.split()) <= names and not (g == "image c" and "out" in names)]
        for g in taken + ["some tables"] * (GROUPS[0] not in taken and len(names & set("m store frames bounds pointers vars variables".split())) > 1):
            add(i, "group:" + g.replace(" ", "+"), i.name)
        for fact in {re.sub(r"^\((.*)\)$", r"\1", f).replace(".old", ".now") for c in i.clauses for f in split(c, "×")}:
            facts[fact].append(i)
    for fact, users in facts.items():
        add(users[0], "fact", f"{fact}  in {len(users)}: " + ", ".join(f"{u.crate}::{u.name}" for u in users), len(users) > 2)

def point6():
    for i in ALL:
        arrays = [n for n, t in fields(i) if t.startswith("[")] if i.sort == "struct" else [i.name] if i.sort == "const" and i.head.startswith("[") else re.findall(r"let (?:mut )?(\w+) = \[[^;\]]*; *\w+\]", i.body)
        add(i, "fixed-array", f"{i.name}: {', '.join(arrays)}", arrays)
    for i in FNS:
        slices = [n for n, t in fields(i) if re.match(r"&('\w+ )?(mut )?\[", t)]
        for pair in ("tags bits", "live frame allocation offset"):
            add(i, "parallel-arrays", f"{i.name}({pair})", set(pair.split()) <= set(slices))
        add(i, "records-in-words", i.name, re.search(r"\* [2458]\b", i.body) and re.search(r"\w\[|word_at\(|put\(", i.body))
        add(i, "search", i.name, re.search(r"\bwhile\b[^{]*\{.*\bif\b[^{]*\{\s*return\b", i.body, re.S) or i.result == "Seen")
        sizes = [n for n, t in fields(i) if t in ("usize", "u64") and (n in ("count", "length", "len", "total", "used", "kept") or n in ("n", "size") and len(slices) < 3)]
        add(i, "slice-and-length", f"{i.name}({', '.join(slices)}; {', '.join(sizes)})", slices and sizes)

def point7():
    for i in FNS:
        for m in re.finditer(r"\bmatch ([^{]+?) \{", i.body):
            arms = re.findall(r"(?:^|[,}{\n])\s*([^=;\n]+?) => (?:\{\s*)?(?:return )?((?:\w+::)*[a-z]\w*\(|\w+)", i.body[m.end() - 1:closing(i.body, m.end() - 1)])
            by = "number" if sum(bool(re.match(r"\d|(\w+::)*[A-Z_]{2,}\b", a[0])) for a in arms) > 1 else "kind"
            add(i, "switch-by-" + by, f"{i.name}: match {m[1]}, {len(arms)} arms", len({a[1] for a in arms if a[1].endswith("(")}) > 2, i.first + i.body.count("\n", 0, m.start()))
        tests = max(collections.Counter(re.findall(r"\bif (\w+ ==(?= [a-z]+::[A-Z_]{3}| [A-Z]| \d\d|  )|same\(\w+,) ", i.body)).values(), default=0)
        add(i, "chain-of-tests", f"{i.name}: {tests} tests", tests > 1)

def point8():
    for path in sorted(glob.glob(f"{TOP}/crates/*/proofs/**/*.antt", recursive=True)):
        crate, file = path.split("/crates/")[1].split("/proofs/")
        sort = {"Answers.antt": "answer", "Invariants.antt": "invariant"}.get(file.split("/")[-1], "lemma") if "/" in file else "lemma"
        found = [(k, m) for k, m in ((k, re.match(r" *(?:abbrev |unfoldable )*pub (?!record |data |mod |use )([^\s:]+)[^:]* : *(goal\.)?", x)) for k, x in enumerate(open(path), 1)) if m]
        PLACES.extend([(crate, file, 1, sort + "-file", "")] * (file != "Lib.antt") + [(crate, file, k, sort, m[1]) for k, m in found])

ALL = list(items())
FNS = [i for i in ALL if i.sort == "fn"]
if not re.fullmatch("[1-8]", POINT):
    sys.exit(__doc__)
globals()["point" + POINT]()
for crate, file, line, sort, what in sorted(PLACES):
    print(f"{crate} {file}:{line} {sort} {what}")
count = collections.Counter((p[3], p[0]) for p in PLACES)
for sort in sorted({s for s, _ in count}):
    print(f"{sort}: {sum(n for (s, _), n in count.items() if s == sort)} = " + ", ".join(f"{c} {n}" for (s, c), n in sorted(count.items()) if s == sort))
print(len(PLACES), "places")
