#!/usr/bin/env python3
"""Counts the places of the design pass in src/ and proofs/ of every crate: one section for each point of
docs/DESIGN-PASS.md. `tools/places.py [TREE]`; with -v each place is listed."""
import collections, pathlib, re, sys

args = [a for a in sys.argv[1:] if a != "-v"]
verbose = "-v" in sys.argv
top = pathlib.Path(args[0] if args else ".")
sources = sorted(top.glob("crates/*/src/**/*.rt"))
lines = [(f"{p.relative_to(top)}:{n}", line) for p in sources for n, line in enumerate(p.read_text().split("\n"), 1)]
code = [(at, line) for at, line in lines if not line.lstrip().startswith("//")]


def show(name, places):
    print(f"{name}: {len(places)}")
    if verbose:
        for place in places:
            print(f"    {place}")


def grep(pattern):
    return [f"{at}  {line.strip()}" for at, line in code if re.search(pattern, line)]


def functions():
    for p in sources:
        text = p.read_text()
        for m in re.finditer(r"^( *)(?:pub(?:\(crate\))? )?(?:final )?fn (\w+)", text, re.M):
            end = text.find("\n" + m[1] + "}", m.start())
            semi = re.compile(r";\n").search(text, m.start())
            body = text[m.start() : end if end > 0 else len(text)]
            if semi and "{\n" not in text[m.start() : semi.start()]:
                body = text[m.start() : semi.start()]
            yield f"{p.relative_to(top)}:{text.count(chr(10), 0, m.start()) + 1} {m[2]}", body


bodies = list(functions())
print("# 1 own kinds")
show("enums", grep(r"^\s*(pub(\(crate\))? )?enum "))
show("numbers for refusals", grep(r"(refusal|owed|given|fault|number)\w*\b.*(Option<u8>|-> u8)"))
print("# 2 twins: run `duplicates` over the sources (docs/DESIGN-PASS.md says how)")
print("# 3 loops")
show("while and loop", grep(r"^\s*(while|loop)\b"))
counted = []
for name, body in bodies:
    for m in re.finditer(r"for (\w+) in [^{\n]*\.\.[^{\n]*\{", body):
        rest = body[m.end() :]
        if re.search(rf"\[[^\]]*\b{m[1]}\b[^\]]*\]", rest):
            counted.append(f"{name}: {m[0]}")
show("for over a range that indexes", counted)
show("for over a range", grep(r"\bfor \w+ in [^{]*\.\."))
print("# 4 by hand")
show("equality of fields", grep(r"(\w+)\.(\w+) [!=]= (\w+)\.\2 (&&|\|\|)"))
show("conversions by function or bytes", grep(r"fn (of_\w+|to_\w+|mark|name)\(|from_be_bytes"))
show("as", grep(r"\bas (u8|u16|u32|u64|usize|i8|i16|i32)\b"))
show("Display by hand", grep(r"impl .*Display for"))
show("least or largest by a test", grep(r"if (\w+) <=? (\w+) \{ \1 \}"))
print("# 5 what travels together")
groups = collections.defaultdict(list)
clauses = collections.defaultdict(list)
for name, body in bodies:
    head = body.split("\n{")[0] if "\n{" in body else body
    sig = re.search(r"\((.*?)\)\s*(->|$|\n|where|;)", head, re.S)
    params = [re.sub(r"\s+", " ", x.strip()) for x in (sig[1] if sig else "").split(",") if ":" in x]
    for i in range(len(params)):
        for j in range(i + 1, len(params)):
            groups[params[i] + ", " + params[j]].append(name)
    for c in set(re.findall(r"^\s*(?:requires|ensures)(?: \w+)? \{ (.*) \}\s*$", head, re.M)):
        clauses[re.sub(r"\.(old|new|now)\b", "", c)].append(name)
show("pairs of parameters in three functions or more", sorted(f"{len(v)} × {k}" for k, v in groups.items() if len(v) > 2))
show("facts in the contracts of three functions or more", sorted(f"{len(v)} × {k}" for k, v in clauses.items() if len(v) > 2))
print("# 6 buffers")
show("arrays", grep(r"\[(\w+)(\{[^}]*\})?; ?\w+\]"))
show("length or index beside", grep(r"^\s*(pub(\(crate\))? )?(count|used|at|length|top|offset): (u8|usize)"))
print("# 7 kinds of step")
show("function values", grep(r"\bdyn \w|\bfn\(|Box<|\bimpl Fn|<F: Fn"))
print("# 8 proofs")
proofs = sorted(top.glob("crates/*/proofs/**/*.antt"))
text = {p: p.read_text() for p in proofs}
show("lines", [x for t in text.values() for x in t.split("\n") if x.strip()])
show("answers", [x for p, t in text.items() if p.name == "Answers.antt" for x in re.findall(r"^(?:pub )?[\w-]+ : goal\.", t, re.M)])
show("lemmas", [x for p, t in text.items() if p.parent.name == "proofs" for x in re.findall(r"^(?:abbrev )?(?:pub )?[\w-]+ :", t, re.M)])
