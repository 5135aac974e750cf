#!/usr/bin/env python3
"""design_counts.py [COMMIT] [POINT]: the places of docs/DESIGN-PASS.md in crates/*/src (point 8: in crates/*/proofs) of a commit, HEAD by default.
With a point it lists them, without it counts them."""
import re, subprocess, sys, collections

commit = sys.argv[1] if len(sys.argv) > 1 else "HEAD"
point = sys.argv[2] if len(sys.argv) > 2 else None

def git(*words):
    return subprocess.run(["git", *words], capture_output=True, text=True, check=True).stdout

files = git("ls-tree", "-r", "--name-only", commit, "crates").split("\n")
sources = {it: git("show", f"{commit}:{it}") for it in files if re.fullmatch(r"crates/\w+/src/\w+\.rt", it)}
# a thin archive repeats the signatures of its library, which C fixes
own = {it: text for it, text in sources.items() if not re.match(r"crates/\w+_export_c/", it)}
found = collections.defaultdict(list)

def lines(name, pattern, texts=own):
    for it, text in texts.items():
        for number, line in enumerate(text.split("\n"), 1):
            if not line.lstrip().startswith("//") and re.search(pattern, line):
                found[name].append(f"{it}:{number}: {line.strip()}")

# 1: an enum with a case for "refused", "none" or "damaged"; a bool field beside others; a number that stands for a refusal or for "none"
for it, text in own.items():
    for m in re.finditer(r"^(?:pub )?enum (\w+) \{(.*?)^\}", text, re.S | re.M):
        if re.search(r"^    (Refused|None|Damaged|Unsound|Broken)\b", m.group(2), re.M):
            found["1 enums shaped like Option or Result"].append(f"{it}: {m.group(1)}")
    for m in re.finditer(r"^(?:pub )?struct (\w+) \{(.*?)^\}", text, re.S | re.M):
        if re.search(r": bool,", m.group(2)):
            found["1 a flag with a value beside it"].append(f"{it}: {m.group(1)}")
lines("1 refusals by number", r"refusal::[A-Z_]+")
lines("1 numbers for none or for kinds", r"NO_NUMBER|NO_HEAD|tasks: 0, next|return 10;|^const (BEGIN|LISTS|EVERY|TURNS|NONE|END): u32|4294967295;$")

# 2: a function's name with a body in several files, and hand-written minimum and maximum
names = collections.defaultdict(list)
for it, text in own.items():
    for m in re.finditer(r"^\s*(?:pub )?(?:extern \"C\" )?fn (\w+)", text, re.M):
        names[m.group(1)].append(it)
for name, places in sorted(names.items()):
    if len(places) > 1 and name not in ("main", "fmt", "from", "new"):
        found["2 names of functions with bodies in several places"].append(f"{name}: {' '.join(places)}")
lines("2 minimum and maximum by hand", r"fn (smaller|larger|lower|higher|begun_degree)\(a|fn (smaller|larger)\b|fn begun_degree")

# 3
lines("3 loops with while or loop", r"^\s*(while|let \w+ = loop|loop) ?(?!let)")

# 4: printing, conversion and comparison by functions
lines("4 printing by hand", r"show::(say|number|pair|words)\(")
lines("4 conversion by hand", r"fn (side_of|named|in_turn|in_every|letter|is_accepted|digit)\(")

# 5: many parameters
for it, text in own.items():
    for m in re.finditer(r"fn (\w+)(?:<[^>]*>)?\(([^)]*)\)", text):
        count = len([p for p in m.group(2).split(",") if ":" in p])
        if count >= 8:
            found["5 functions with eight or more parameters"].append(f"{it}: {m.group(1)} {count}")

# 6: a table as two lists
for it, text in own.items():
    for m in re.finditer(r"fn (\w+)(?:<[^>]*>)?\(([^)]*)\)", text):
        if re.search(r"starts: &(?:mut )?\[u32\],\s+(preds|words|succs): &", m.group(2)) or re.search(r"pred_starts: ", m.group(2)):
            found["6 a table of a graph as two lists"].append(f"{it}: {m.group(1)}")

# 7
lines("7 a switch on the step", r"Step::Fetch =>")

# 8
proofs = {it: git("show", f"{commit}:{it}") for it in files if re.fullmatch(r"crates/\w+/proofs/.*\.antt", it)}
answers = sum(len(re.findall(r"^(?:abbrev )?pub \S+ : goal\.", text, re.M)) for text in proofs.values())
lemma_lines = sum(len(text.split("\n")) for it, text in proofs.items() if it.count("/") == 3)
answer_lines = sum(len(text.split("\n")) for it, text in proofs.items() if it.count("/") > 3)

if point:
    for name in sorted(found):
        if name.startswith(point):
            print(f"{name}: {len(found[name])}")
            print("\n".join("  " + it for it in found[name]))
else:
    for name in sorted(found):
        print(f"{len(found[name]):5}  {name}")
    print(f"{answers:5}  8 answers, in {answer_lines} lines of files of functions; {lemma_lines} lines of lemma files")
    print(f"{sum(len(t.split(chr(10))) for t in own.values()):5}  lines of source, thin archives not counted")
