#!/usr/bin/env python3
"""Counts, in crates/*/src, the places of the forms that docs/DESIGN-PASS.md speaks of. Usage, at the top of the
repository: python3 tools/forms.py [-v], which with -v lists each place. It finds by shape alone: what a place is for, and
whether the form is right there, is for a reader to say."""
import collections, glob, re, sys

VERBOSE = "-v" in sys.argv
FILES = sorted(glob.glob("crates/*/src/**/*.rt", recursive=True))

def strip(text):
    """The code without comments, contracts and imports of the logic, line breaks kept."""
    out = []
    for line in text.split("\n"):
        bare = line.strip()
        skip = bare.startswith("//") or re.match(r"(ghost use|ensures|requires|ghost \w+)\b", bare)
        out.append("" if skip else re.sub(r"\s//.*$", "", line))
    return "\n".join(out)

CODE = {f: strip(open(f).read()) for f in FILES}
PLACES = collections.OrderedDict()

def add(point, path, offset, what):
    line = CODE[path].count("\n", 0, offset) + 1
    PLACES.setdefault(point, []).append((path[len("crates/"):], line, " ".join(what.split())[:90]))

def find(point, pattern, flags=re.M):
    for path, code in CODE.items():
        for m in re.finditer(pattern, code, flags):
            add(point, path, m.start(), m.group(0))

def functions(path):
    """Each function of a file: offset, name, parameters, body."""
    code = CODE[path]
    for m in re.finditer(r"\bfn (\w+)", code):
        open_at = code.find("(", m.end())
        depth, i = 0, open_at
        while i < len(code):
            depth += (code[i] == "(") - (code[i] == ")")
            i += 1
            if depth == 0:
                break
        params = code[open_at + 1:i - 1]
        brace, semi = code.find("{", i), code.find(";", i)
        if brace < 0 or (0 <= semi < brace):
            continue
        depth, j = 0, brace
        while j < len(code):
            depth += (code[j] == "{") - (code[j] == "}")
            j += 1
            if depth == 0:
                break
        yield m.start(), m.group(1), [p.strip() for p in re.split(r",(?![^<(\[]*[>)\]])", params) if p.strip()], code[brace:j]

# 1: what Option, Result, `?` and enums say
find("1a error or none passed on by hand", r"\b(?:Err\((\w+)\) => (?:return )?Err\(\1\)|None => (?:return )?None\b|else \{\s*return None;)")
find("1b number for a kind, a rule or a refusal", r"\b(?:rule|kind|kinds|code|number|other|allowed|n): (?:u8|u16)\b|-> u8\b|^(?:pub(?:\(crate\))? )?const \w+: (?:u8|u16) =")
find("1c refusal as an option", r"Option<Refusal>")
find("1d flag with values beside it", r"\b(?:filled|present|valid|found|some): bool")
find("1e rule by its digits", r"\b(?:note_\w+|of_keyword|at)\((?:[^()]|\([^()]*\))*?\b(?:[1-9]|[1-4]\d|5[0-2]), ", re.M | re.S)
# 3: loops by hand
find("3a for over a range of indices", r"\bfor \w+ in 0\.\.")
find("3b while with a counter", r"\bwhile \w+(?:\.\w+)? [<>] ")
find("3c counter moved by hand", r"\b\w+ [+-]= 1;")
# 4: conversions, comparisons and printing by hand
find("4a span of a token or a keyword by hand", r"Span \{\s*start: (\w+)\.start,\s*end: \1\.end,?\s*\}")
find("4b test of a variant by a match", r"=> true,\s*(?:\w+::\w+[^=]*|_) => false,|=> false,\s*(?:\w+::\w+[^=]*|_) => true,", re.M | re.S)
find("4c number of a variant by a match", r"match self \{\s*\w+::\w+ => \d+,", re.M | re.S)
find("4d type without derived equality", r"#\[derive\((?![^)]*PartialEq)[^)]*\)\]\s*pub(?:\(crate\))? (?:struct|enum) \w+", re.M | re.S)
find("4e printing piece by piece", r"\bfn print_\w+")
# 6 and 7
find("6a memory with a length or a place beside it", r"(?:\[\w+; \w+\]|&'a (?:mut )?\[\w+\]),\s*(?:\w+: [^,]+,\s*)*?(?:pub )?(?:len|count|at|left|filled|taken): (?:usize|u8|u32)", re.M | re.S)
for path in FILES:
    for at, name, params, body in functions(path):
        for m in re.finditer(r"\bmatch [\w.*()]+ \{(.*?)\n\s*\}\n", body, re.S):
            arms = re.findall(r"=> ([^\n]*)", m.group(1))
            if len(arms) >= 4 and sum(bool(re.match(r"(\w+::)*[\w.]+\(", a)) for a in arms) >= len(arms) - 1 and not any(re.match(r"Some\(", a) for a in arms):
                add("7a switch on which step to run", path, at, f"fn {name}")

# 5: parameters that travel together
groups = collections.defaultdict(list)
for path in FILES:
    if "/tests_" in path:
        continue
    for at, name, params, body in functions(path):
        if len(params) >= 5:
            add("5a function of five parameters and more", path, at, f"fn {name} ({len(params)})")

# 2: functions that are the same but for names and literals
shapes = collections.defaultdict(list)
WORDS = {"if", "else", "match", "for", "while", "loop", "return", "let", "mut", "Some", "None", "Ok", "Err", "in", "true", "false"}
for path in FILES:
    for at, name, params, body in functions(path):
        toks = re.findall(r"\w+|[^\s\w]", body)
        toks = [t for k, t in enumerate(toks) if not (t == "," and k + 1 < len(toks) and toks[k + 1] in ")}]")]
        shape = " ".join(t if t in WORDS or not re.match(r"\w", t) else "x" for t in toks)
        if len(toks) >= 12:
            shapes[shape].append((path, at, name))
for shape, same in shapes.items():
    if len(same) > 1:
        for path, at, name in same:
            add("2a function of the same shape as another", path, at, f"fn {name} [{', '.join(n for _, _, n in same if n != name) or 'same name'}]")

for point in sorted(PLACES):
    print(f"{point}: {len(PLACES[point])}")
    if VERBOSE:
        for path, line, what in sorted(PLACES[point]):
            print(f"    {path}:{line}  {what}")
