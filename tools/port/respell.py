#!/usr/bin/env python3
"""Respells the repository's own names of specs/ and proofs/: camelCase and a-dash become snake_case. usage: respell.py [--write] [--table FILE] (at the top)"""
import os, re, sys, glob, json
W = r"[^\s(){}.;,@\"«»\[\]\\:]+"
TOKEN = re.compile(r"--[^\n]*|//[^\n]*|\"(?:[^\"\\]|\\.)*\"|«[^»]*»|" + W + r"|\.|:")
write = "--write" in sys.argv
antt = [p for p in glob.glob("crates/*/specs/**/*.antt", recursive=True) + glob.glob("crates/*/proofs/**/*.antt", recursive=True)]
rt = glob.glob("crates/*/src/**/*.rt", recursive=True)
FN = ("Proof.antt", "Answers.antt", "Invariants.antt")
is_fn = lambda p: os.path.basename(p) in FN and "/proofs/" in p and os.path.basename(os.path.dirname(p)) != "proofs"
lemma_files = [p for p in antt if not is_fn(p)]
fn_files = [p for p in antt if is_fn(p)]
read = lambda p: open(p, encoding="utf-8").read()
DECL = re.compile(r"^[ ]*(?:(?:abbrev|unfoldable|pub|mutual) )*(" + W + r")\s*(?:\{[^}]*\} ?|\([^)]*\) ?)*:(?=[ \n])", re.M)
KIND = re.compile(r"^[ ]*(?:(?:pub|unfoldable) )*(?:record|data|ruleset) (" + W + ")", re.M)
RULES = re.compile(r"^[ ]*(?:pub )?ruleset (" + W + r")", re.M)
ALIAS = re.compile(r"\bas (" + W + ")")
def snake(n):
    if not re.match(r"[a-z]", n): return n
    m = re.sub(r"(?<=[a-z0-9])-(?=[A-Za-z0-9])", "_", n)
    m = re.sub(r"(?<=[a-z0-9])([A-Z])(?=[A-Za-z0-9'′₀-₉]|$)", lambda x: "_" + x[1].lower(), m)
    return m
def decls(text):
    text = re.sub(r"--[^\n]*", "", text)
    names = {m[1] for m in DECL.finditer(text)}
    names |= {m[1] for m in RULES.finditer(text)}
    # constructors: '  | name' or in data bodies 'pub name : ' are found by DECL
    return names
KIT = set()
own = {}
for p in lemma_files:
    for n in decls(read(p)):
        if snake(n) != n: own.setdefault(n, []).append(p)
# names that the kit exports under the same spelling are not ours
for p in antt:
    for m in re.finditer(r"^(?:pub )?use (\S+)\.\{([^}]*)\}", read(p), re.M):
        if not m[1].startswith("Rattle.") or m[1].startswith("Rattle.std"):
            for it in m[2].split(","):
                it = it.strip().split(" as ")
                KIT.add(it[0])
                if len(it) > 1 and snake(it[1]) != it[1]: own.setdefault(it[1], []).append(p)
clash_kit = sorted(n for n in own if n in KIT)
for n in clash_kit: del own[n]
M = {n: snake(n) for n in own}
BY_HAND = {'ofUrl': 'of_url_number', 'httpOnly': 'http_only_at', 'casesAToJ': 'cases_from_a_to_j'}
M.update({n: m for n, m in BY_HAND.items() if n in M})
# constructors, other names of imports, and variables
M.update({'mapBit': 'map_bit', 'keyBit': 'key_bit', 'ranTwoHosts': 'ran_two_hosts', 'secrecyExamples': 'secrecy_examples',
    'integrityExamples': 'integrity_examples', 'httpsAlone': 'https_alone', 'toEntry': 'to_entry', 'redirectToEntry': 'redirect_to_entry',
    'carriedByUrl': 'carried_by_url', 'carriedBy': 'carried_by', 'allRecords': 'records_in_all', 'allCookies': 'cookies_in_all',
    'sameKeys': 'keys_same', 'sameValues': 'values_same'})
for n in ('mapBit', 'keyBit', 'ranTwoHosts', 'secrecyExamples', 'integrityExamples', 'httpsAlone', 'toEntry', 'redirectToEntry', 'carriedByUrl',
        'carriedBy', 'allRecords', 'allCookies', 'sameKeys', 'sameValues'): own.setdefault(n, [])
# every name that we declare, as it stands
D = {}
for p in lemma_files:
    for n in decls(read(p)): D.setdefault(n, []).append(p)
FIELDS = set(re.findall(r"\b([a-z]\w*)\s*:", "\n".join(re.sub(r"//[^\n]*", "", read(p)) for p in rt)))
in_specs = lambda n: any("/specs/" in f for f in D.get(n, []))
# a lemma that falls together with a definition gets _lem (CONTRACT_STYLE, Names, 3)
camel = lambda n: bool(re.search(r"[a-z0-9][A-Z]", n))
by = {}
for n, m in M.items(): by.setdefault(m, []).append(n)
for m, ns in by.items():
    if len(ns) > 1:
        for n in ns:
            if not camel(n): M[n] = m + "_lem"; print("lem:", n, "->", M[n])
for n, m in list(M.items()):
    if m in D and m not in M:
        if not camel(n): M[n] = m + "_lem"; print("lem:", n, "->", M[n], "beside", m, D[m])
        elif not in_specs(m): M[m] = m + "_lem"; own[m] = D[m]; print("lem:", m, "->", M[m], "beside", n, own[n], D[m])
        else: print("STAYS TOGETHER", n, own[n], m, D[m])
for n, m in M.items():
    if m in FIELDS: print("field or parameter of src:", n, "->", m, own[n])
# two of ours that fall together
back = {}
for n, m in M.items(): back.setdefault(m, set()).add(n)
for m, s in sorted(back.items()):
    if len(s) > 1: print("together:", m, sorted(s), {x: own[x] for x in s})
for n in sorted(clash_kit): print("kit's too, left:", n)
def toks(text): return {t for t in re.findall(W, re.sub(r"--[^\n]*", "", text))}
all_text = {p: read(p) for p in antt + rt}
def clauses(text):
    return text
changed = 0
def turn(p, text):
    ext_rt = p.endswith(".rt")
    mine = dict(M)
    skip = set()
    base = os.path.basename(p)
    if is_fn(p):
        body = re.sub(r"--[^\n]*", "", text)
        for m in DECL.finditer(body):
            n = m[1]
            rest = body[m.end():m.end() + 40].lstrip()
            if rest.startswith(("tie.", "goal.")): skip.add(n)
            elif n.endswith("-spec"): skip.add(n)
            elif snake(n) != n: mine[n] = snake(n)
    out, last = [], 0
    prev = ""
    prevprev = ""
    chain = False
    ts = list(TOKEN.finditer(text))
    for i, m in enumerate(ts):
        t = m[0]
        if t.startswith(("--", "//")):   # a name in a comment stands between backquotes
            said = re.sub(r"`([^`]*)`", lambda z: "`" + M.get(z[1], z[1]) + "`", t)
            if said != t: out.append(text[last:m.start()]); out.append(said); last = m.end()
            continue
        if t.startswith(('"', "«")) or t in ".:": continue
        if t not in mine: continue
        if ext_rt and t == snake(t): continue   # a name of src/ keeps its spelling
        if t in skip: continue
        dotted = i > 0 and ts[i-1][0] == "." and ts[i-1].end() == m.start()
        if dotted:
            # walk back to head of path
            j = i
            parts = []
            while j > 1 and ts[j-1][0] == "." and ts[j-1].end() == ts[j].start() and ts[j-2].end() == ts[j-1].start():
                j -= 2; parts.append(ts[j][0])
            head = ts[j][0]
            if head in ("tie", "goal"): continue
            if is_fn(p) and head != "Rattle" and mine[t].endswith("_lem"): continue   # a step of the code
        if ext_rt:
            # only inside clauses / ghost use lines
            line0 = text.rfind("\n", 0, m.start())
        out.append(text[last:m.start()]); out.append(mine[t]); last = m.end()
    out.append(text[last:])
    return "".join(out)
RESERVED = set("data record deriving module where use mod pub package open as unfoldable abbrev axiom unfold unfolding ruleset mutual infix infixl infixr elim let in do Type".split())
for p in antt + rt:
    text = all_text[p]
    before = toks(text)
    used = {t for t in before if t in M}
    for n in used:
        if M[n] in before: print(f"look: {p}: {n} -> {M[n]}, which the file has already")
        if M[n] in RESERVED: print("reserved:", n)
    new = turn(p, text)
    if new != text:
        changed += 1
        if write: open(p, "w", encoding="utf-8").write(new)
print(len(M), "names,", changed, "files")
if "--table" in sys.argv: json.dump(M, open(sys.argv[sys.argv.index("--table") + 1], "w"), ensure_ascii=False, indent=0, sort_keys=True)
