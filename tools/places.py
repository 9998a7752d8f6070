#!/usr/bin/env python3
"""Counts the places of docs/DESIGN-PASS.md in crates/*/src, by text: the points are the page's. With a folder as its
argument it counts those of the checkout there. `--list` names each place."""
import re
import sys
from collections import defaultdict
from pathlib import Path

top = Path(next((w for w in sys.argv[1:] if not w.startswith("--")), Path(__file__).resolve().parent.parent))
sources = {str(p.relative_to(top / "crates")): p.read_text() for p in sorted(top.glob("crates/*/src/*.rt"))}
found: dict[str, list[str]] = defaultdict(list)


def items(keyword: str):
    """Each item that begins with the keyword at a line's start or in an impl: file, name, head, body."""
    for file, text in sources.items():
        for m in re.finditer(rf"^ *(?:pub )?{keyword} (\w+)(.*?)\n? *\{{\n(.*?)^ *\}}$", text, re.S | re.M):
            yield file, m.group(1), m.group(2), m.group(3)


def functions():
    """Each function: file, name, parameters, what follows them up to the body, body."""
    for file, text in sources.items():
        for m in re.finditer(r"^( *)(?:pub )?fn (\w+)[^(]*\((.*?)^\1\}$", text, re.S | re.M):
            rest = m.group(3)
            start = re.search(rf"^{m.group(1)}\{{$|\{{$", rest, re.M)
            parameters, _, after = rest[: start.start()].partition(")")
            yield file, m.group(2), parameters, after, rest[start.end() :]


# 1: enums with a case that says that there is nothing or why not, bool fields, numbers matched in place of cases, bools for success
none = r"Built|Refused|Faulty|Not|Bad|Unread|Nothing|Nowhere|NoFile|NoNumber|NoInteger|NotTaken|NoVerb|Unknown|Anywhere|Any|All|Cut|End"
for file, name, _, body in items("enum"):
    if re.search(rf"^ *(?:{none})\b[,(]", body, re.M):
        found["1 an enum like Option or Result"].append(f"{file} {name}")
for file, name, _, body in items("struct"):
    for flag in re.findall(r"(\w+): bool", body):
        found["1 a flag beside a value"].append(f"{file} {name}.{flag}")
for file, name, _, _, body in functions():
    if re.search(r"^ *\d+ => ", body, re.M):
        found["1 numbers in place of cases"].append(f"{file} {name}")
for file, name, parameters, rest, _ in functions():
    if "-> bool" in rest.split("{")[0] and re.search(r"Files|Write\b", parameters):
        found["1 a bool for success"].append(f"{file} {name}")

# 2: functions whose bodies are the same but for names, types and numbers
shapes = defaultdict(list)
for file, name, _, _, body in functions():
    words = re.findall(r"\w+|[^\w\s]", re.sub(r"//.*", "", body))
    shape = " ".join("x" if re.match(r"[A-Za-z_]", w) and w not in ("while", "if", "for", "let", "mut", "return", "match") else "0" if w[0].isdigit() else w for w in words)
    if len(words) >= 14:
        shapes[file.split("/")[0], shape].append(f"{file} {name}")
for group in shapes.values():
    if len(group) > 1:
        found["2 twins"].append(" = ".join(group))

# 3: loops that are no `for`
for file, text in sources.items():
    for m in re.finditer(r"^ *(?:while|loop) ?(.*) \{$", text, re.M):
        found["3 a while"].append(f"{file} {m.group(1)}")

# 4: equality, order, copying and conversion by hand
by_hand = r"same_bytes|first_byte|front|rest|copy_\w+|clear_\w+|open_all|negative|wide|size|hold|lesser|smaller_at|larger_at|earlier|shift|without_minus|with_minus|unless"
for file, name, _, _, _ in functions():
    if re.fullmatch(by_hand, name):
        found["4 by hand"].append(f"{file} {name}")

# 5: more than six parameters; facts of values in the clauses of three functions or more
for file, name, parameters, _, _ in functions():
    if len([p for p in re.split(r",\s*", parameters.strip()) if ":" in p]) > 6:
        found["5 more than six parameters"].append(f"{file} {name}")
for fact in ("Sound", "Within", "Full", "Room", "Lent", "Chained", "Shaped", "Posed", "Front", "Mended"):
    uses = [f"{file} {name}" for file, name, _, rest, _ in functions() if re.search(rf"requires.*\b{fact}\b|^ .*\b{fact}\b.*}}$", rest, re.M)]
    if len(uses) > 2:
        found["5 a fact in three contracts or more"].append(f"{fact}: {len(uses)}")

# 6: a buffer with a length, an end or a mark beside it; arrays in step
for file, name, parameters, rest, _ in functions():
    if re.search(r"page: &mut \[u8[;\]]", parameters) or re.search(r"&\[u8\],\s*\w+: File", parameters):
        found["6 a buffer with a length beside it"].append(f"{file} {name}")
    if re.search(r"sources: .*targets: ", parameters, re.S):
        found["6 arrays in step"].append(f"{file} {name}")
for file, name, _, body in items("struct"):
    if re.search(r": \[\w+; \w+\]", body) and re.search(r"(count|end|length): usize", body):
        found["6 a buffer with a length beside it"].append(f"{file} {name}")

# 7: values that say which step to run
for file, name, _, body in items("enum"):
    if re.search(r"Task|BoxWork|Trip|Column|Axis|Stride", name):
        found["7 a value that says which step to run"].append(f"{file} {name}")

for point in sorted(found):
    print(f"{len(found[point]):4}  {point}")
    if "--list" in sys.argv:
        print("".join(f"        {place}\n" for place in found[point]), end="")
# 8: the proofs
answers = [p for p in top.glob("crates/*/proofs/**/Answers.antt")]
print(f"{len(answers):4}  8 files of answers, {sum(len(p.read_text().splitlines()) for p in answers)} lines")
print(f"{sum(len(p.read_text().splitlines()) for p in top.glob('crates/*/proofs/**/*.antt')):4}  8 lines of proofs in all")
