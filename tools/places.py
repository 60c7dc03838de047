#!/usr/bin/env python3
"""places.py [--at COMMIT] [--other] [POINT..]: the places of the points of docs/DESIGN-PASS.md in crates/*/src, and how many there are.

Without --at it reads the files of the checkout, with it those of a commit. --other counts points 1 to 3 in a second way. Without a POINT (1 to 8, or
a part as 1a) all are listed. A line of output is FILE:LINE, the name of the function or type, and what was seen; a last line has the count.
A place is one to look at, no verdict: what stays is said on the page.
"""
import argparse, collections, difflib, glob, itertools, os, re, subprocess

ROOT = os.path.join(os.path.dirname(os.path.abspath(__file__)), "..")
NUMBER = r"(?:u8|u16|u32|u64|usize|i32|i64)"
NONE = "Refused|Fault|Nothing|Malformed|Stop"
WORD = re.compile(r"[A-Za-z_][A-Za-z0-9_]*|\d[\w]*|[^\sA-Za-z0-9_]")
KEEP = set("if else while loop for in match return let mut break continue as true false pub fn struct enum self Self".split())

Fn = collections.namedtuple("Fn", "crate file line name params result clauses body start note public")
Type = collections.namedtuple("Type", "crate file line name what parts derives")
Answers = collections.namedtuple("Answers", "crate file text")


def sources(commit):
    """(path, text) of the code and of the proofs."""
    if commit is None:
        for pattern in ("crates/*/src/**/*.rt", "crates/*/proofs/**/*.antt"):
            for path in sorted(glob.glob(os.path.join(ROOT, pattern), recursive=True)):
                with open(path, encoding="utf-8") as file:
                    yield os.path.relpath(path, ROOT), file.read()
        return
    git = ["git", "-C", ROOT]
    names = subprocess.run(git + ["ls-tree", "-r", "--name-only", commit, "crates/"], capture_output=True, text=True, check=True).stdout.split("\n")
    names = [n for n in names if re.fullmatch(r"crates/[^/]+/(src/.*\.rt|proofs/.*\.antt)", n)]
    with subprocess.Popen(git + ["cat-file", "--batch"], stdin=subprocess.PIPE, stdout=subprocess.PIPE) as p:
        for n in names:
            p.stdin.write(f"{commit}:{n}\n".encode())
            p.stdin.flush()
            size = int(p.stdout.readline().split()[2])
            text = p.stdout.read(size).decode()
            p.stdout.read(1)
            yield n, text
        p.stdin.close()


def code_of(line):
    return re.sub(r"//.*", "", line)


def signature(head):
    """Parameters and result of a signature that is given as one text."""
    at = head.index("(")
    depth, end = 0, at
    for i in range(at, len(head)):
        depth += head[i] in "([" and 1 or head[i] in ")]" and -1 or 0
        if depth == 0:
            end = i
            break
    inside, depth, parts, cur = head[at + 1 : end], 0, [], ""
    for ch in inside:
        depth += ch in "([<" and 1 or ch in ")]>" and -1 or 0
        if ch == "," and depth == 0:
            parts.append(cur)
            cur = ""
        else:
            cur += ch
    parts = [p.strip() for p in parts + [cur] if p.strip()]
    result = re.match(r"\s*->\s*([^{\n]*?)\s*(\{|requires|ensures|$)", head[end + 1 :])
    return [tuple(x.strip() for x in p.split(":", 1)) if ":" in p else (p, "") for p in parts], result.group(1) if result else ""


def functions_of(path, text):
    crate, lines, i = path.split("/")[1], text.split("\n"), 0
    while i < len(lines):
        m = re.match(r"(\s*)((?:pub(?:\([a-z]+\))? )?)(?:const )?(?:extern \"C\" )?fn (\w+)", lines[i])
        if not m:
            i += 1
            continue
        indent, j, head, clauses = m.group(1), i, "", []
        while True:
            line = code_of(lines[j])
            word = line.strip().split(" ")[0] if line.strip() else ""
            if word in ("requires", "ensures", "decreases"):
                clauses.append(line.strip())
            elif clauses and line.strip() != "{":
                clauses[-1] += " " + line.strip()
            elif line.strip() != "{":
                head += line + " "
            if line.rstrip().endswith((";", "{}")) or line.strip() == "{" or (not clauses and line.rstrip().endswith("{") and head.count("(") == head.count(")")):
                break
            j += 1
        k = j + 1
        if line.rstrip().endswith((";", "{}")):
            k = j
        while k > j and not lines[k].startswith(indent + "}"):
            k += 1
        note, n = [], i - 1
        while 0 <= n and re.match(r"\s*(//|#\[)", lines[n]):
            note.insert(0, lines[n].strip(" /"))
            n -= 1
        params, result = signature(head.rstrip(" {"))
        yield Fn(crate, path, i + 1, m.group(3), params, result, clauses, lines[j + 1 : k], j + 2, " ".join(note), bool(m.group(2)))
        i = k + 1


def types_of(path, text):
    crate, lines = path.split("/")[1], text.split("\n")
    for i, line in enumerate(lines):
        m = re.match(r"(?:pub )?(struct|enum) (\w+)", line)
        if not m:
            continue
        parts, k = [], i + 1
        while line.rstrip().endswith("{") and not lines[k].startswith("}"):
            part = code_of(lines[k]).strip().rstrip(",")
            if part and not part.startswith("#"):
                parts.append(part)
            k += 1
        derives, n = [], i - 1
        while 0 <= n and re.match(r"\s*(//|#\[)", lines[n]):
            derives += re.findall(r"\w+", "".join(re.findall(r"derive\((.*)\)", lines[n])))
            n -= 1
        yield Type(crate, path, i + 1, m.group(2), m.group(1), parts, derives)


def body_text(f):
    return "\n".join(code_of(x) for x in f.body)


def shape(text):
    """The tokens of a text, names and numbers alike."""
    return tuple(t if t in KEEP or not re.match(r"\w", t) else "x" for t in WORD.findall(text))


class Repository:
    def __init__(self, commit):
        self.fns, self.types, self.lines, self.answers = [], [], [], []
        for path, text in sources(commit):
            if path.endswith(".antt"):
                self.answers.append(Answers(path.split("/")[1], path, text))
                continue
            self.fns += functions_of(path, text)
            self.types += types_of(path, text)
            self.lines += [(path, n, code_of(x)) for n, x in enumerate(text.split("\n"), 1)]

    def within(self, path, line):
        """The function or type that a line stands in."""
        name = "-"
        for x in self.fns + self.types:
            if x.file == path and x.line <= line:
                size = len(x.body) + x.start - x.line if isinstance(x, Fn) else len(x.parts) + 1
                if line <= x.line + size:
                    name = x.name
        return name


def at(x, what=""):
    return f"{x.file}:{x.line}", x.name, what


# ---- point 1


def one_a(r):
    "enums with a variant that says no: Refused, Fault, Nothing, Malformed, Stop"
    return [at(t, " | ".join(t.parts)) for t in r.types if t.what == "enum" and any(re.match(rf"({NONE})\b", p) for p in t.parts)]


def one_a_other(r):
    "enums of two to four variants that are results of functions, but for those whose variants all hold nothing"
    results = {f.result for f in r.fns}
    return [at(t, " | ".join(t.parts)) for t in r.types if t.what == "enum" and t.name in results and 2 <= len(t.parts) <= 4 and any("(" in p for p in t.parts)]


def one_b(r):
    "structs with a bool beside other fields"
    return [at(t, "; ".join(t.parts)) for t in r.types if t.what == "struct" and len(t.parts) > 1 and any(p.endswith(": bool") for p in t.parts)]


def one_b_other(r):
    "fields that a condition reads (if x.f, if !x.f) or that are set to true, false or a comparison"
    found = collections.OrderedDict()
    for path, n, line in r.lines:
        for m in re.finditer(r"\bif !?\w+\.(\w+) \{|^\s*(\w+): (?:true|false|\w[\w.]* [=<]=? [\w.()]+),$", line):
            found.setdefault(m.group(1) or m.group(2), []).append(f"{os.path.basename(os.path.dirname(os.path.dirname(path)))}:{n}")
    return [("", name, " ".join(places)) for name, places in found.items()]


def one_c(r):
    "functions with a number, a Part or a Draft as result that give 0 by itself in a branch"
    out = []
    for f in r.fns:
        if not re.fullmatch(NUMBER + "|Part|Draft", f.result):
            continue
        text = body_text(f)
        if re.search(r"return 0;|[{>] 0[ ,]|^\s+0$|\{ (place|size): 0, \w+: 0 \}", text, re.M):
            out.append(at(f, f"-> {f.result}"))
    return out


def one_c_other(r):
    "functions with such a result whose comment says what a 0, an empty part or a number past all others stands for"
    said = r"\b0 (where|for|of)\b|\bempty\b|\bany number where\b|\bmore than any\b|, else 0\b|\bthe number is 0\b|\b0 in\b|\bnone for\b|\bCheck in numbers\b|\bhas no number\b|: 0 for\b"
    return [at(f, f"-> {f.result}") for f in r.fns if re.fullmatch(NUMBER + r"|Part|Draft|&\[u8\]", f.result) and re.search(said, f.note)]


def one_d(r):
    "refusal numbers as literals"
    out = []
    for path, n, line in r.lines:
        for m in re.finditer(r"\b(?:Refused|Fault)\((\d+)\b|\bn == (18)\b", line):
            out.append((f"{path}:{n}", r.within(path, n), m.group(0)))
    return out


def one_d_other(r):
    "a token scan: a number from 1 to 20 that is the first token in the parentheses of a path of two names, and the u8 of a refusal compared with one"
    out = []
    for f in r.fns:
        toks = [(m.group(0), f.start + body_text(f)[: m.start()].count("\n")) for m in WORD.finditer(body_text(f))]
        carriers = {p for p, t in f.params if t == "u8" and p in ("n", "number")}
        for i, (t, line) in enumerate(toks):
            if not (t.isdigit() and 1 <= int(t) <= 20) or i < 4:
                continue
            a = ["", ""] + [x for x, _ in toks[max(i - 6, 0) : i]]
            if a[-1] == "(" and a[-3:-1] and a[-4:-2] == [":", ":"] and a[-5][0].isupper() and a[-2] not in ("Int", "Float", "Fixed", "Counted"):
                out.append((f"{f.file}:{line}", f.name, a[-5] + "::" + a[-2] + "(" + t))
            elif a[-2:] == ["=", "="] and a[-3] in carriers:
                out.append((f"{f.file}:{line}", f.name, a[-3] + " == " + t))
    return out


def one_e(r):
    "the number of a refusal carried as a u8: variants and parameters"
    out = [at(t, p) for t in r.types for p in t.parts if re.match(r"(Refused|Fault)\(u8", p)]
    return out + [at(f, f"{p}: u8") for f in r.fns for p, t in f.params if t == "u8" and p in ("n", "number")]


def one_e_other(r):
    "variants whose first field is a u8, and u8 parameters that are named neither code nor kind nor by one letter but n"
    out = [at(t, p) for t in r.types for p in t.parts if re.match(r"\w+\(u8", p)]
    return out + [at(f, f"{p}: u8") for f in r.fns for p, t in f.params if t == "u8" and p not in ("code", "kind") and (len(p) > 1 or p == "n")]


def one_g(r):
    "arms of a match that take a refusal or nothing, or hand a None or an Err on, by hand, where ?, let else or a method would"
    out = []
    for path, n, line in r.lines:
        m = re.search(r"::(?:Refused|Fault)\((\w+)(?:, \w+)?\) =>|::(?:Nothing|Malformed|Stop)\b.* =>|\b(?:None|Err\(\w+\)) => (?:return )?(?:None|Err\()", line)
        if m:
            out.append((f"{path}:{n}", r.within(path, n), line.strip()))
    return out


def one_g_other(r):
    "match expressions one of whose arms names an enum of 1a, by function"
    enums = {x[1] for x in one_a(r)}
    out = []
    for f in r.fns:
        for k, line in enumerate(f.body):
            m = re.match(r"(\s*).*\bmatch .*\{$", code_of(line))
            if not m:
                continue
            arms = [a for a in f.body[k + 1 :] if re.match(r"\s*(\w+)::\w+.*=>", a)]
            first = re.match(r"\s*(\w+)::", arms[0]) if arms else None
            if first and first.group(1) in enums and f.body[k + 1] == arms[0]:
                out.append((f"{f.file}:{f.start + k}", f.name, first.group(1)))
    return out


def one_f(r):
    "kinds as numbers: a comparison or a match of a type byte, an event type, a side, a mark or a checksum kind with literals"
    out = []
    for path, n, line in r.lines:
        for m in re.finditer(r"\b(?:\w+\.)?(?:kind|code|t|side|mark|mode|i) (?:==|!=|<|<=) \d+|\b\d+ (?:<|<=) (?:\w+\.)?(?:kind|mark)\b|match (?:kind|code) \{", line):
            if m.group(0).startswith("i ") and r.within(path, n) not in ("used_at",) or line.strip().startswith("requires"):
                continue
            out.append((f"{path}:{n}", r.within(path, n), m.group(0)))
    return out


def one_f_other(r):
    "functions with a parameter that is such a number"
    return [at(f, ", ".join(f"{p}: {t}" for p, t in f.params if p in KINDS and t in ("u8", "u32", "u64", "usize"))) for f in r.fns
            if any(p in KINDS and t in ("u8", "u32", "u64", "usize") for p, t in f.params) and f.crate != "words"]


KINDS = {"kind", "code", "t", "side", "mark"}
# types, and functions, that reading found to be twins: they differ in a type, a size, a constant, or in what they answer of the same walk
TWINS = """float_of double_of
crc:take pay
few many
carry_far carry_near
number big
two_complement extended
values_end values_spot
cell_end cell_spot
image_end image_spot
put_integer put_float put_year put_date
counted_end put_text
blob_most put_blob
types_of metadata_of
database_part_at table_part_at
binlog:database_part binlog:table_part binlog:text_part binlog:change binlog:value
binlog:database_name binlog:table_name binlog:text
database_name_at table_name_at text_at
walk:check walk:list walk:entry_of
put_changes put_events listed:values
is_clear is_free any_bit
shift crc:clear walk:clear
same_few same_bytes
count_bits any_bit
entry_at entry_in entry_from
put_five numbers:put_entry
no_key blank no_rows
key_of slot moved
lesser within cursor:reach
settled fault_place
side_place by_side
sum_right describe
print_opened readlog:main
Packing Digits
Span Used Index Put
Head Step
Ending Rowed Row Checked Changed Found Opened
Described Mapped Columns Framed
Filled Run
Went Walked
Places Live Key
Datetime Time
Five Two"""


# ---- point 2


def grouped(items, key):
    groups = collections.OrderedDict()
    for x in items:
        k = key(x)
        if k is not None:
            groups.setdefault(k, []).append(x)
    return [g for g in groups.values() if len(g) > 1]


def two_a(r):
    "functions whose bodies are alike token by token but for names and numbers (20 tokens or more), with results of one form and as many parameters"
    def key(f):
        s = shape(body_text(f))
        return (s, len(f.params)) if len(s) >= 20 else None
    return [("", " = ".join(f"{f.crate}::{f.name}" for f in g), f"{len(shape(body_text(g[0])))} tokens") for g in grouped(r.fns, key)]


def two_a_other(r):
    "pairs of functions of 20 tokens or more, the called names kept, whose tokens are alike to four parts in five"
    def kept(f):
        text = body_text(f)
        return [t if t in KEEP or not re.match(r"\w", t) or re.search(rf"\b{re.escape(t)}\(", text) else "x" for t in WORD.findall(text)]
    toks = [(f, kept(f)) for f in r.fns]
    toks = [(f, t, set(t)) for f, t in toks if len(t) >= 20]
    out = []
    for (f, a, x), (g, b, y) in itertools.combinations(toks, 2):
        if 2 * min(len(a), len(b)) < 0.8 * (len(a) + len(b)):
            continue
        m = difflib.SequenceMatcher(None, a, b, autojunk=False)
        if m.real_quick_ratio() >= 0.8 and m.quick_ratio() >= 0.8 and m.ratio() >= 0.8:
            out.append(("", f"{f.crate}::{f.name} ~ {g.crate}::{g.name}", f"{m.ratio():.2f}"))
    return out


def two_b(r):
    "types of one shape: the same kinds of fields in the same order, names aside"
    def key(t):
        parts = [re.sub(r"^\w+(: )?", "", p) for p in t.parts]
        return (t.what, tuple(sorted(parts))) if t.parts and any(parts) else None
    return [("", " = ".join(f"{t.crate}::{t.name}" for t in g), "; ".join(g[0].parts)) for g in grouped(r.types, key)]


def two_b_other(r):
    "pairs of structs that have three or more fields of the same name and type"
    out = []
    for a, b in itertools.combinations([t for t in r.types if t.what == "struct"], 2):
        both = [re.sub(r"^pub ", "", p) for p in a.parts if p in b.parts]
        if len(both) >= 3:
            out.append(("", f"{a.crate}::{a.name} ~ {b.crate}::{b.name}", "; ".join(both)))
    return out


def two_c(r):
    "groups that reading found, of which two or more stand"
    out = []
    for group in TWINS.split("\n"):
        there = []
        for name in group.split():
            crate, name = name.split(":") if ":" in name else ("", name)
            there += [f"{x.file}:{x.line} {x.name}" for x in r.fns + r.types if x.name == name and crate in ("", x.crate)]
        if len(there) > 1:
            out.append(("", " = ".join(there), ""))
    return out


def two_c_other(r):
    "runs of six lines or more in the bodies of functions that are equal but for names and numbers"
    rows = []
    for f in r.fns:
        rows.append((f, [(shape(code_of(x)), f.start + k) for k, x in enumerate(f.body) if re.search(r"\w", code_of(x))]))
    return [("", f"{f.crate}::{f.name} ~ {g.crate}::{g.name}", f"{n} lines, from line {x} and {y}") for n, f, x, g, y in runs(rows, 6)]


def runs(rows, least):
    out = []
    for (f, a), (g, b) in itertools.combinations([x for x in rows if len(x[1]) >= least], 2):
        m = difflib.SequenceMatcher(None, [x for x, _ in a], [x for x, _ in b], autojunk=False)
        for i, j, n in m.get_matching_blocks():
            if n >= least:
                out.append((n, f, a[i][1], g, b[j][1]))
    return sorted(out, key=lambda x: -x[0])


# ---- point 3


def loops(r):
    for f in r.fns:
        for k, line in enumerate(f.body):
            m = re.match(r"(\s*)(?:'\w+: )?(while (.*) \{|loop \{)$", code_of(line).rstrip())
            if m:
                end = next(e for e in range(k + 1, len(f.body)) if f.body[e].startswith(m.group(1) + "}"))
                yield f, k, m, [code_of(x) for x in f.body[k + 1 : end]]


def three_a(r):
    "while and loop, with the condition and what is added to its variables"
    out = []
    for f, k, m, body in loops(r):
        steps = re.findall(r"\b(\w+ [+-]= [^;]+);", "\n".join(body))
        moved = [re.sub(r"\s+", " ", x) for x in re.findall(r"^\s*(\w+ = [^;{]+);", "\n".join(body), re.M)]
        out.append((f"{f.file}:{f.start + k}", f.name, f"{m.group(3) or 'loop'}   [{'; '.join(steps + moved)}]"))
    return out


def three_a_other(r):
    "functions in which a variable that is declared with let mut grows or shrinks by a number, a length or a name and stands in an index, a comparison or a call beside it"
    out = []
    for f in r.fns:
        text = body_text(f)
        counters = [v for v in re.findall(r"let mut (\w+)", text) if re.search(rf"\b{v} [+-]= ", text) and re.search(rf"\bwhile\b|\bloop\b", text)]
        counters += [v for v in re.findall(r"let mut (\w+)", text) if v not in counters and re.search(rf"\b(while|loop)\b", text) and re.search(rf"^\s+{v} = \w+(\.\w+)?( \+ 1)?;", text, re.M) and re.search(rf"\b{v} <|<=? [^{{}}\n]*\b{v}\b", text)]
        if counters:
            out.append(at(f, ", ".join(counters)))
    return out


def three_b(r):
    "of these loops those whose one counter goes up by 1 to a bound, the plainest for a for"
    out = []
    for f, k, m, body in loops(r):
        c = re.match(r"(\w+) < ", m.group(3) or "")
        text = "\n".join(body)
        if c and re.findall(rf"\b{c.group(1)} \+= (\w+)", text) == ["1"] and not re.search(rf"^\s*{c.group(1)} = ", text, re.M):
            out.append((f"{f.file}:{f.start + k}", f.name, m.group(3)))
    return out


# ---- points 4 to 8


def four(r):
    "functions that compare, order, copy, convert or print by hand"
    out = []
    for f in r.fns:
        text, what = body_text(f), ""
        if f.result == "bool" and len(re.findall(r"if [^{]+ != [^{]+ \{\s*return false;", text)) >= 1:
            what = "equality"
        elif f.result == "bool" and re.search(r"if (\d+|\w+) < (\d+|\w+) \{\s*return (true|false);", text):
            what = "order, bounds"
        elif re.fullmatch(r"\s*if (\w+) <=? ([\w.()]+) \{ (\w+) \} else \{ ([\w.()]+|\w+ [-+] \w+) \}\s*", text):
            what = "order (min, max, saturating_sub)"
        elif f.name.startswith("print_") or f.name == "fail":
            what = "printing"
        elif max(collections.Counter(x for x, y in re.findall(r"^\s+\w+: (\w+)(\.|\[)", text, re.M)).values(), default=0) >= 3:
            what = "copying field by field"
        elif re.fullmatch(r"\s*\(?\w+(\[\w+\])? as \w+\)?\s*", text) or re.search(r"^\s*\*?out = \[|^\s*out\[j\] = ", text, re.M):
            what = "conversion"
        elif f.name in ("kind_of", "two", "eight", "word", "turned", "number", "big", "apart", "size_of", "complement_of", "extended", "sight_of", "verdict", "step_by"):
            what = "conversion"
        if what:
            out.append(at(f, what))
    return out


def four_b(r):
    "types that derive no more than Clone and Copy"
    return [at(t, f"{t.what}, derives {' '.join(t.derives) or 'nothing'}") for t in r.types if set(t.derives) <= {"Clone", "Copy"}]


def bare(text):
    text = text.strip()
    while text.startswith("(") and text.endswith(")"):
        depth = [sum((c == "(") - (c == ")") for c in text[:k]) for k in range(1, len(text))]
        if min(depth, default=0) < 1:
            break
        text = text[1:-1].strip()
    return text


def conjuncts(clause):
    text = re.sub(r"^(requires|ensures)( \w+)? \{(.*)\}$", r"\3", clause).strip()
    if "→" in text:
        return [(clause.split(" ")[0], bare(text))]
    return [(clause.split(" ")[0], bare(x)) for x in re.split(r" × ", text)]


def five_a(r):
    "facts (a clause, or a part of one between ×) that stand in the contracts of three functions or more"
    seen = collections.defaultdict(list)
    for f in r.fns:
        for key in {(w, re.sub(r"\b(\w+)\.(?:now|old)\b", r"\1", t)) for c in f.clauses for w, t in conjuncts(c)}:
            seen[key].append(f"{f.crate}::{f.name}")
    rows = sorted(((len(v), k, v) for k, v in seen.items() if len(v) >= 3), reverse=True)
    return [("", f"{n} {w} {{ {t} }}", " ".join(v)) for n, (w, t), v in rows]


def five_b(r):
    "sets of three parameters or more (name and type) that stand together in three functions or more, the widest of them"
    sets = [(f, frozenset(p for p in f.params if p[1])) for f in r.fns]
    found = {}
    for (f, a), (g, b) in itertools.combinations(sets, 2):
        common = a & b
        if len(common) >= 3:
            found[common] = [f"{h.crate}::{h.name}" for h, c in sets if common <= c]
    rows = [(len(v), k, v) for k, v in found.items() if len(v) >= 3]
    rows = [x for x in rows if not any(x[1] < y[1] and x[0] <= y[0] for y in rows)]
    return [("", f"{n} ({', '.join(sorted(p for p, _ in k))})", " ".join(v)) for n, k, v in sorted(rows, key=lambda x: (-x[0], -len(x[1])))]


def six(r):
    "arrays of a fixed size, buffers lent with a number beside them that counts into them, and structs with a length or a count"
    out = []
    for path, n, line in r.lines:
        m = re.search(r"let (?:mut )?(\w+) = (\[[^\]]*; \w+\]|no_maps\(\)|io::buffer\(\))", line)
        if m:
            out.append((f"{path}:{n}", r.within(path, n), m.group(0).replace("let mut ", "").replace("let ", "")))
    for f in r.fns:
        buf = [p for p, t in f.params if re.match(r"&mut \[u\d+\]|&\[u(32|64)(; 16)?\]", t)]
        num = [p for p, t in f.params if t in ("usize", "Draft", "Key", "Keys", "Wanted") and p in ("n", "i", "j", "d", "k", "q", "written", "at", "room", "len")]
        if buf and num and f.crate != "tegmeadow":
            out.append(at(f, f"buffer {', '.join(buf)} beside {', '.join(num)}"))
    out += [at(t, "; ".join(t.parts)) for t in r.types if t.what == "struct" and any(re.search(r"\b(len|count|written|size)\b", p) for p in t.parts)]
    return out


def seven(r):
    "bool parameters that choose a step, matches on a class or a kind that choose a function, closures and function values"
    out = [at(f, ", ".join(f"{p}: bool" for p, t in f.params if t == "bool")) for f in r.fns if any(t == "bool" for _, t in f.params)]
    for f in r.fns:
        arms = re.findall(r"=> .*\{?\n?.*?\b([a-z]\w+)\(", body_text(f))
        many = re.findall(r"^\s+[\w:|. (),]+ => ", body_text(f), re.M)
        if len(set(arms)) >= 3 and len(many) >= 4 and " match " in " " + re.sub(r"\s+", " ", body_text(f)):
            out.append(at(f, f"match of {len(many)} arms with calls"))
    for path, n, line in r.lines:
        if re.search(r"\bdyn \w|impl Fn|: fn\(|\|\w+(, \w+)*\| ", line):
            out.append((f"{path}:{n}", r.within(path, n), line.strip()))
    return out


def eight(r):
    "answers, invariants and law files by crate"
    rows = collections.OrderedDict()
    for x in r.answers:
        row = rows.setdefault(x.crate, [0, 0, 0, 0, 0])
        base = os.path.basename(x.file)
        if base == "Answers.antt":
            row[0] += 1
            row[1] += len(re.findall(r"^pub [^\n]* : goal\.", x.text, re.M))
        elif base == "Invariants.antt":
            row[2] += len(re.findall(r"^(?:abbrev )?pub [^\n]* : goal\.", x.text, re.M))
        elif base != "Lib.antt":
            row[3] += 1
            row[4] += len(re.findall(r"^(?:pub )?[^\s:]+ :", x.text, re.M))
    rows["all"] = [sum(v[k] for v in rows.values()) for k in range(5)]
    return [("", c, f"functions with answers {a}, answers {b}, invariants and measures {i}, law files {l}, laws in them {n}") for c, (a, b, i, l, n) in rows.items()]


FIRST = {"1a": one_a, "1b": one_b, "1c": one_c, "1d": one_d, "1e": one_e, "1f": one_f, "1g": one_g, "2a": two_a, "2b": two_b, "2c": two_c, "3a": three_a, "3b": three_b, "4a": four, "4b": four_b,
         "5a": five_a, "5b": five_b, "6": six, "7": seven, "8": eight}
OTHER = {"1a": one_a_other, "1b": one_b_other, "1c": one_c_other, "1d": one_d_other, "1e": one_e_other, "1f": one_f_other, "1g": one_g_other, "2a": two_a_other, "2b": two_b_other,
         "2c": two_c_other, "3a": three_a_other}


def main():
    p = argparse.ArgumentParser(description=__doc__, formatter_class=argparse.RawDescriptionHelpFormatter)
    p.add_argument("--at", metavar="COMMIT")
    p.add_argument("--other", action="store_true")
    p.add_argument("--count", action="store_true", help="the counts alone")
    p.add_argument("points", nargs="*")
    a = p.parse_args()
    r = Repository(a.at)
    for key, look in (OTHER if a.other else FIRST).items():
        if a.points and not any(key.startswith(x) for x in a.points):
            continue
        rows = look(r)
        if not a.count:
            for place, name, what in rows:
                print("  ".join(x for x in (place, name, what) if x))
        print(f"{key}: {len(rows) - (key == '8')} ({look.__doc__})\n" if not a.count else f"{key}: {len(rows) - (key == '8')}")


if __name__ == "__main__":
    main()
