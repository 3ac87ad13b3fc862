#!/usr/bin/env python3
"""Counts the places in crates/*/src where code reads like an older language.

What each count is for, docs/DESIGN-PASS.md says.

    python3 tools/places.py [--list] [FOLDER]

FOLDER is a checkout (the present one). With --list each place is named. Counted are:
  1 own enums; fields that are flags; functions, fields and constants that are number codes
  2 functions whose bodies are alike but for names and numbers (of two lines or more)
  3 loops that are no `for`; those among them that step an index
  5 facts that the contracts of three functions or more repeat; functions of seven parameters or more
  6 fields and parameters that are arrays of numbers
  8 answers in the proof files
"""
import collections
import glob
import re
import sys

arguments = [a for a in sys.argv[1:] if a != "--list"]
listing = "--list" in sys.argv
root = arguments[0] if arguments else "."


def sources():
    for path in sorted(glob.glob(f"{root}/crates/*/src/**/*.rt", recursive=True)):
        yield path[len(root) + 1:], open(path, encoding="utf-8").read()


def tell(name, places):
    print(f"{name}: {len(places)}")
    if listing:
        for place in places:
            print("    ", place)


def lines(pattern):
    return [f"{path}:{n}: {line.strip()}" for path, text in sources() for n, line in enumerate(text.split("\n"), 1)
            if re.search(pattern, line) and not line.lstrip().startswith("//")]


def functions():
    """Path, name, parameters, contract and body of each function."""
    start = re.compile(r"^ *(?:pub )?(?:const )?(?:unsafe )?(?:extern \"C\" )?fn (\w+)", re.M)
    for path, text in sources():
        marks = list(start.finditer(text))
        for mark, following in zip(marks, marks[1:] + [None]):
            part = text[mark.end():following.start() if following else len(text)]
            opened = part.index("(") if not part.startswith("<") else part.index("(", part.index(">("))
            depth, end = 0, opened
            for end in range(opened, len(part)):
                depth += {"(": 1, ")": -1}.get(part[end], 0)
                if depth == 0:
                    break
            indent = re.match(" *", mark.group()).group()
            opening = r"^(?:\) (?:-> [^\n{]*)?|" + indent + r")\{\n"
            body = re.search(opening + r"(.*?)^" + indent + r"\}$", part[end:], re.M | re.S)
            contract = part[end:end + body.start()] if body else part[end:]
            yield path, mark.group(1), part[opened + 1:end], contract, body.group(1) if body else ""


every = list(functions())
tell("1 own enums", lines(r"^\s*(pub )?enum "))
tell("1 flags among fields", [p for p in lines(r"^ {4}pub \w+: bool,$")])
tell("1 number codes", lines(r"\bfn \w+\(.*-> u8$|refusal: u8|^\s*(pub )?const [A-Z_]+: u8\b|Refused\(u8\)"))
shapes = collections.defaultdict(list)
for path, name, _, _, body in every:
    code = re.sub(r"//[^\n]*", "", body)
    if len([x for x in code.split("\n") if x.strip()]) >= 2:
        words = re.findall(r"[A-Za-z_]\w*|\d+|\S", code)
        keep = {"let", "mut", "while", "for", "in", "if", "else", "return", "as", "match", "loop", "break"}
        named = [not (w in keep or not (w[0].isalpha() or w[0] == "_")) for w in words]
        shape = " ".join("n" if w[0].isdigit() else "x" if is_name else w for w, is_name in zip(words, named))
        shapes[shape].append(f"{path} {name}")
tell("2 functions of one shape with another", [", ".join(group) for group in shapes.values() if len(group) > 1])
loops = lines(r"^\s*('\w+: )?(while|loop)\b.*\{$")
tell("3 loops that are no `for`", loops)
stepping = []
for path, name, _, _, body in every:
    for loop in re.finditer(r"^( *)(?:'\w+: )?while .*\{\n(.*?)^\1\}$", body, re.M | re.S):
        if re.search(r"^" + loop.group(1) + r"    \w+ [+-]= 1;$", loop.group(2), re.M):
            stepping.append(f"{path} {name}")
tell("3 loops that step an index by 1", stepping)
told = collections.defaultdict(set)
for path, name, _, contract, _ in every:
    for clause in re.findall(r"requires[^{]*\{([^\n]*)\}", contract):
        for fact in re.findall(r"\b([A-Z]\w+) ", clause):
            told[fact].add(f"{path} {name}")
often = sorted(((len(where), fact) for fact, where in told.items() if len(where) > 2), key=lambda x: -x[0])
tell("5 facts required by three functions or more", [f"{fact} ({n})" for n, fact in often])
counted = [(path, name, len([p for p in given.split(",") if ":" in p])) for path, name, given, _, _ in every]
tell("5 functions of seven parameters or more", [f"{path} {name} ({n})" for path, name, n in counted if n >= 7])
tell("6 fields that are arrays", lines(r"^ {4}(pub )?\w+: \[\w+; \w+\],$"))
answers = [f"{path}" for path in glob.glob(f"{root}/crates/*/proofs/**/Answers.antt", recursive=True)]
count = sum(len(re.findall(r"^pub \S+ : goal\.", open(path, encoding="utf-8").read(), re.M)) for path in answers)
print(f"8 answers: {count} in {len(answers)} files")
