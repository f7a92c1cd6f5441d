#!/usr/bin/env python3
"""respell [--dry]: the repository's own definitions, lemmas, fields and parameters in today's spelling: words in snake case.

To be run once, at the top, right after the kit's port.py. It goes over specs/, proofs/ and src/, and leaves the must-fail edits as they are. A
name with a hyphen (in definitions, lemmas and clauses) or one in lower camel case (takesContext; in the code too) becomes snake case. Functions
keep their names, and so does what the library or the check makes. It prints each name that falls together with another one."""
import os, re, sys, glob, collections

dry = "--dry" in sys.argv
GENERATED = re.compile(r"(Need|After|In|At|Then|Else|Left|Joined)-")
TOKEN = re.compile(r"[A-Za-zκ-ω][\w'₀-₉·κ-ω]*(?:-[\w'₀-₉·κ-ω]+)*")
USE = re.compile(r"\buse\s+([\w.·-]+?)\.\{([^}]*)\}", re.S)
DECLARES = re.compile(r"^[ \t]*(?:(?:pub|abbrev|unfoldable|opaque|ghost)\s+)*([A-Za-z][\w'₀-₉·]*(?:-[\w'₀-₉·]+)*)(?:\s+[^\s:(){}][^:]*)?\s:\s", re.M)
own_crates = {os.path.basename(d.rstrip("/")) for d in glob.glob("crates/*/")}

modules = {os.path.basename(p)[:-5] for p in glob.glob('crates/*/*/**/*.antt', recursive=True)}
def antt(): return sorted(glob.glob("crates/*/specs/**/*.antt", recursive=True) + glob.glob("crates/*/proofs/**/*.antt", recursive=True))
def rt(): return sorted(glob.glob("crates/*/src/**/*.rt", recursive=True))

def bare(t, mark): return re.sub(mark + r".*", "", t)

library, declared, rust = set(), collections.defaultdict(set), set()
for p in antt() + rt():
    t = bare(open(p, encoding="utf-8").read(), "--" if p.endswith("antt") else "//")
    for m in USE.finditer(t):
        first = m[1].split(".")
        if not (first[0] == "Rattle" and len(first) > 1 and first[1] in own_crates):
            library |= {n.strip().split(" as ")[0] for n in m[2].split(",")}
    if p.endswith("antt"):
        for m in DECLARES.finditer(t): declared[m[1]].add(p)
    else:
        rust |= set(re.findall(r"\b(?:fn|let|mut|mod|struct|enum|const)\s+(\w+)", t))

def snake(n):
    n = n.replace("getD", "get_or").replace("-", "_")
    if n[0].islower(): n = re.sub(r"([a-z0-9])([A-Z])", lambda m: m[1] + "_" + m[2].lower(), n)
    return n

def turns(n, here=frozenset(), comment=False):
    if GENERATED.match(n) or n in here or (n in library and n not in declared): return False
    if comment and n not in declared: return False
    if "-" in n: return True
    return n in declared and n[0].islower() and re.search(r"[a-z][A-Z]", n) is not None and n not in rust

def taken(text):
    """What a file takes from the library: there the name is the library's, whoever else declares one like it."""
    names = set()
    for m in USE.finditer(text):
        first = m[1].split(".")
        if not (first[0] == "Rattle" and len(first) > 1 and first[1] in own_crates): names |= {n.strip().split(" as ")[0] for n in m[2].split(",")}
    return names

made = collections.defaultdict(set)
def turn(text, mark, dots):
    """Each name of the text; what stands behind a dot only where this repository declares it."""
    out, last, here = [], 0, taken(text)
    for m in TOKEN.finditer(text):
        n = m[0]
        line = text.rfind("\n", 0, m.start()) + 1
        before = text[m.start() - 1] if m.start() else ""
        if before == "." and n not in declared and snake(n) not in rust:
            owner = re.search(r"([A-Z]\w*)\.$", text[line:m.start()])   # a name behind a module's stays only where it is the library's
            if not owner or owner[1] not in modules: continue
        if not turns(n, here, mark in text[line:m.start()]): continue
        out.append(text[last:m.start()]); out.append(snake(n)); last = m.end()
        made[snake(n)].add(n)
    return "".join(out) + text[last:]

def clauses(text):
    """The parts of a source file that are clauses: ghost uses, and what stands in the braces behind requires, ensures, ghost, decreases, invariant."""
    spans, i = [], 0
    for m in re.finditer(r"^\s*ghost use[^;]*;", text, re.M): spans.append(m.span())
    for m in re.finditer(r"\b(?:requires|ensures|ghost|decreases|invariant)\b(?:\s+[\w]+)?\s*:?\s*(?=\{)", text):
        d, j = 0, m.end()
        while j < len(text):
            d += (text[j] == "{") - (text[j] == "}"); j += 1
            if d == 0: break
        spans.append((m.end(), j))
    return sorted(spans)

# Lower camel case: fields and parameters, in code, clauses and definitions alike, and within a name that the check makes of them.
CAMEL = re.compile(r"(?<![\w'])[a-z][a-z0-9]*(?:[A-Z][a-z0-9]*)+(?![\w'])")
def camel(text):
    def one(m):
        if m[0] in library: return m[0]
        made[snake(m[0])].add(m[0]); return snake(m[0])
    return CAMEL.sub(one, text)

changed = 0
texts = {}
for p in antt() + rt():
    t = open(p, encoding="utf-8").read()
    if p.endswith(".rt"):
        u, last = [], 0
        for a, b in clauses(t):
            if a < last: continue
            u += [t[last:a], turn(t[a:b], "//", True)]; last = b
        u = "".join(u) + t[last:]
    else:
        u = turn(t, "--", True)
    u = camel(u)
    if u != t: texts[p] = u; changed += 1
seen = collections.defaultdict(set)
for n in declared: seen[snake(n) if turns(n) else n].add(n)
for n, s in sorted(made.items()):
    both = s | ({n} if n in declared else set())
    if len(both) > 1 or n in library: print("falls together:", n, "from", ", ".join(sorted(both)), "(library)" if n in library else "", "declared in", ", ".join(sorted(set().union(*(declared.get(x, set()) for x in both)))[:6]))
if not dry:
    for p, u in texts.items(): open(p, "w", encoding="utf-8").write(u)
print(f"{len(made)} names in {changed} files")
