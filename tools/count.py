#!/usr/bin/env python3
"""count.py [POINT] at the top of a checkout: the places of older forms, by the eight points of docs/DESIGN-PASS.md, over crates/*/src (8: proofs).
-v lists them. Rows that name functions or types count what still stands under those names."""
import re, glob, sys, os, collections
V = '-v' in sys.argv; only = [a for a in sys.argv[1:] if a.isdigit()]
S = {p: open(p, encoding='utf8').read() for p in sorted(glob.glob('crates/*/src/**/*.rt', recursive=True))}
def say(pt, what, hits):
    if only and pt not in only: return
    hits = list(hits); print(f'{pt}  {what}: {len(hits)}')
    if V:
        for h in hits: print('      ', h)
def grep(rx, files=None):
    for p, t in (files or S).items():
        for i, l in enumerate(t.split('\n'), 1):
            for _ in re.finditer(rx, l): yield f'{p[7:]}:{i} {l.strip()[:90]}'
F = []  # crate::name, parameters, clauses
for p, t in S.items():
    for m in re.finditer(r'^ *(?:pub(?:\(crate\))? )?(?:extern "C" )?fn (\w+)(?:<[^>]*>)?\(', t, re.M):
        d, e = 1, m.end()
        while d: d += t[e] in '('; d -= t[e] in ')'; e += 1
        body = re.search(r'\n *\{|\{\n', t[e:]); cl = t[e:e + body.start()] if body else ''
        F.append((p.split('/')[1] + '::' + m[1], ' '.join(t[m.end():e - 1].split()), cl))
def par(rx): return [f[0] for f in F if re.search(rx, f[1])]
def cla(rx): return [f[0] for f in F if re.search(rx, f[2])]
# 1
say('1', 'own enums of the shape of Option or Result', grep(r'enum (Composed|Found|Said|Asked)\b'))
say('1', 'structs of a verdict and a value', grep(r'struct (Reading|Listed|Loaded)\b'))
say('1', 'refusals as u8 constants', grep(r'^pub const [A-Z_]+: u8 = \d+;', {k: v for k, v in S.items() if '/model/' in k}))
say('1', 'a refusal taken out and wrapped again by hand', grep(r'Refused\((k|_)\) ?(=|\))|return Composed::Refused\(k\)'))
say('1', 'functions that answer a Verdict as a check', [f[0] for f in F if re.search(r'-> Verdict', f[2])])
say('1', 'kind bytes as parameters', par(r'\bk(ind)?: u8'))
say('1', 'types with no derive but Drop', grep(r'^#\[derive\(Drop\)\]'))
# 2
T = '''firing::move_counts/move_temps firing::shift_count/shift_tokens slots::store/restore records::write_pair/same_pair records::write_record/same_record
records::write_context/same_context records::write_contexts/same_contexts records::write_extra/same_extra records::write_extras/same_extras
records::write_composed/same_composed net::contexts/records::write_contexts net::extras/records::write_extras layout::pair/records::pair layout::wide/relations::wide
judging::copied/serving::copied encoding::call_of/conformance::call_of records::copy/load_cases::copy state::undo/serving::undo
state::settle/serving::settle bench_run::file_bytes/load_cases::input conformance::room/compose_cases::output walk::word/firing::byte compose_cases::next_case/conformance::next_frame
state::more_where/steps::counted listing::hash/hash_number'''.split()
names = {f[0] for f in F}
def full(t):
    a, b = t.split('/'); return a, (b if '::' in b else a.split('::')[0] + '::' + b)
say('2', 'pairs of functions that differ in a type, a size or what is done with one item', [t for t in T if set(full(t)) <= names])
say('2', 'structs of src/ that a record of model/specs says again', grep(r'pub struct (Tally|Reading|Relation|Trailer|Composed|Loaded)\b'))
# 3
say('3', 'while loops', grep(r'^\s*while '))
say('3', 'of these by an index', grep(r'^\s*while [a-z_.]+ <=? '))
# 4
say('4', 'casts by `as`', grep(r' as (u8|u16|u32|u64|usize)\b'))
say('4', 'lines that cut or join bytes by 256', grep(r'.*(% 256|/ 256|\b256 \*)'))
say('4', 'fields copied to a local of their name', grep(r'^ +let (\w+) = \w+\.\1;$'))
say('4', 'an answer with no firings written out', grep(r'^\s*firings: 0,'))
say('4', 'impl blocks', grep(r'^impl\b'))
# 5
say('5', 'functions that take the nine arrays', par(r'takes_?[cC]ontext: .*inhib_?[pP]r:'))
say('5', 'functions that take the words of links', par(r'\[u64; 240\]'))
say('5', 'functions that take kind, a, b', par(r'k: u8, a: usize, b: usize'))
say('5', 'functions that take on, c', par(r'on: bool, c: usize'))
say('5', 'functions that take out and a place in it', par(r'out: &mut \[u8[^,]*, (at|start): usize'))
say('5', 'contracts that quantify over rels', cla(r'\(rels : List Relation\)'))
say('5', 'contracts that quantify over net', cla(r'\(net : Net\) '))
for w, rx in (('n ≤ 48', r'\b(n|contexts) ≤ 48'), ('a context below 48', r'\b(a|c|context) < 48'), ('a kind in its range', r'k ≤ last_kind'), ('Linked', r'requires[^\n]*Linked'), ('Composable', r'Composable'), ('LaidOut', r'LaidOut')):
    say('5', 'contracts with ' + w, cla(rx))
# 6
say('6', 'flattened tables: links 5 x 48, markings 32 x 48, temps 2 x 48', par(r'\[u64; 240\]|\[u8; 1536\]|\[u16; 96\]'))
say('6', 'a buffer with its length beside (Line, out + place, counts + n)', par(r'start: \[u8; 4\]|counts: \[u8; 48\]|line: Line|out: &mut \[u8[^,]*, (at|start): usize'))
say('6', 'accessors that only index', [f[0] for f in F if f[0].split('::')[1] in ('word', 'byte', 'kind_at', 'source_at', 'target_at', 'word_of', 'copied')])
# 7
say('7', 'bool parameters', [f[0] for f in F if re.search(r': bool', f[1])])
say('7', 'of these on: bool', par(r'on: bool'))
say('7', 'walks over a net\'s transitions, one for each thing done with them', [n for n in ('net::contexts', 'net::extras', 'records::write_contexts', 'records::write_extras', 'records::same_contexts', 'records::same_extras', 'transitions::count') if n in names])
# 8
P = {p: open(p, encoding='utf8').read() for p in glob.glob('crates/*/proofs/**/*.antt', recursive=True)}
whole = [p for p in P if p.endswith('Proof.antt')]
say('8', 'whole proofs by hand', whole)
ans = [(p, n, b.strip()) for p in whole for n, b in re.findall(r'^(\w+) : tie\.Need[^\n]*\n(?:unfolding[^\n]*\n)?\1 [^=\n]*=([^\n]*(?:\n(?! *$)[^\n]+)*)', P[p], re.M)]
say('8', 'goals answered there', [m for p in whole for m in re.findall(r'^\w+ : tie\.Need', P[p], re.M)])
say('8', 'of these by `search rules`, `omega arith` or `refl` alone', [a for a in ans if a[2] in ('search rules', 'omega arith', 'refl')])
st = collections.defaultdict(list)
for p, t in P.items():
    for m in re.finditer(r'^ *(?:pub )?(\w[\w\'-]*)(?: \{[^}]*\})? : (\(.{25,}(?:\n +(?:→|≡|×).*)*)$', t, re.M):
        if 'tie.' not in m[2]: st[' '.join(m[2].split())].append(f'{p[7:]}:{m[1]}')
say('8', 'lemma statements that stand twice', [v for v in st.values() if len({x.split(":")[0] for x in v}) > 1])
