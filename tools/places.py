#!/usr/bin/env python3
"""Lists the places in crates/*/src that read like the older language, a point of docs/DESIGN-PASS.md each.

    python3 tools/places.py [--commit COMMIT] [--point N] [--count]

It reads the sources of a commit (of the checkout, if none is given) and knows them by their shape alone: what it lists is to be read, not believed.
"""
import argparse
import collections
import pathlib
import re
import subprocess

FUNCTION = re.compile(r"^( *)(?:pub(?:\(crate\))? )?(?:extern \"C\" )?fn (\w+)(?:<[^>]*>)?\(", re.M)
ITEM = re.compile(r"^(?:pub(?:\(crate\))? )?(struct|enum) (\w+)[^{;]*\{(.*?)^\}", re.M | re.S)


def read(commit):
    """The text of each source file and of each file of answers, by its path."""
    if commit is None:
        paths = sorted(pathlib.Path("crates").glob("*/src/**/*.rt")) + sorted(pathlib.Path("crates").glob("*/proofs/**/Answers.antt"))
        return {str(p): p.read_text() for p in paths}
    listing = ["git", "ls-tree", "-r", "--name-only", commit, "crates"]
    names = subprocess.run(listing, capture_output=True, text=True, check=True).stdout.split("\n")
    wanted = [n for n in names if re.fullmatch(r"crates/\w+/(src/.*\.rt|proofs/.*/Answers\.antt)", n)]
    return {n: subprocess.run(["git", "show", f"{commit}:{n}"], capture_output=True, text=True, check=True).stdout for n in wanted}


def code_of(text):
    """The text without its comments, line for line."""
    return "\n".join(re.sub(r"(^|\s)//.*", "", line) for line in text.split("\n"))


def functions(text):
    """Each function: its name, its line, its head (up to the body) and its body."""
    for found in FUNCTION.finditer(text):
        indent = found.group(1)
        body = re.compile(rf"^{indent}\{{$|\) (?:-> [^{{\n]*)?\{{$", re.M).search(text, found.end())
        end = body and re.compile(rf"^{indent}\}}", re.M).search(text, body.end())
        if end:
            yield found.group(2), text.count("\n", 0, found.start()) + 1, text[found.start():body.start()], text[body.end():end.start()]


def shaped(files):
    """1: an enum of two to four variants of which one says that there is nothing, or why; a struct with a flag; an arm that is a number."""
    for path, text in files.items():
        for kind, name, body in ITEM.findall(code_of(text)):
            if kind == "enum":
                variants = re.findall(r"^    (\w+)(\([^)]*\))?", body, re.M)
                if len(variants) <= 4 and any(v for _, v in variants) and re.search(r"Refus|Missing|Invalid|No\w|Bad|Fail|Last|Dropped|Nothing", body):
                    yield f"{path}: enum {name}"
            elif re.search(r": bool,", body):
                flags = ", ".join(re.findall(r"(\w+): bool", body))
                yield f"{path}: struct {name} ({flags})"
        for name, line, _, body in functions(code_of(text)):
            if len(re.findall(r"^\s+(?:\w+::)?\w+(?:\(_\))? => \d+,", body, re.M)) >= 2 or re.search(r"^\s+\d+ => \w+::", body, re.M):
                yield f"{path}:{line}: numbers in {name}"


def twins(files):
    """2: functions that are the same but for their names, types, sizes and constants."""
    groups = collections.defaultdict(list)
    for path, text in files.items():
        for name, line, head, body in functions(code_of(text)):
            if body.count("\n") < 3:
                continue
            shape = re.sub(r"\bb?\"[^\"]*\"", "S", re.sub(r"\s+", " ", body))
            shape = re.sub(r"\b(?:0x[0-9a-f_]+|\d[\d_]*)(?:u8|u16|u32|u64|usize)?\b", "N", shape)
            shape = re.sub(r"\b[A-Z][A-Z0-9_]+\b", "N", shape)
            shape = re.sub(r"\b(?:u8|u16|u32|u64|usize)\b", "T", shape)
            names = {}
            shape = re.sub(r"\b[a-z_]\w*\b", lambda m: names.setdefault(m.group(0), f"v{len(names)}"), shape)
            groups[shape].append(f"{path}:{line}: {name}")
    for group in groups.values():
        if len(group) > 1:
            yield " = ".join(group)


def loops(files):
    """3: `while` loops, with the index that they count."""
    for path, text in files.items():
        for name, line, _, body in functions(code_of(text)):
            for condition in re.findall(r"\bwhile (.*) \{", body):
                step = re.findall(r"^\s+(\w+) [+-]= 1;", body, re.M)
                yield f"{path}:{line}: {name}: while {condition}{' (counts ' + ', '.join(step) + ')' if step else ''}"


def by_hand(files):
    """4: equality, conversion and printing by hand."""
    for path, text in files.items():
        for name, line, head, body in functions(code_of(text)):
            if re.match(r"same_|is_same|eq_", name) or re.match(r"print_(?:kind|number|refusal|count|table)$|^print$|^wide$", name):
                yield f"{path}:{line}: {name}"
            elif re.search(r"(?:_number|^kind_of|_as|^number_of|^carried_by)$", name) and "match " in body or name == "word_of":
                yield f"{path}:{line}: {name}"


def together(files):
    """5: facts that three or more functions ask, and parameters that travel together."""
    facts, groups = collections.defaultdict(list), collections.defaultdict(list)
    for path, text in files.items():
        for name, line, head, _ in functions(code_of(text)):
            for clause in re.findall(r"requires(?: \w+)? \{(.*)\}", head):
                for fact in re.findall(r"\(?\b([A-Z]\w+)\b", clause):
                    facts[fact].append(name)
            parameters = re.findall(r"(\w+): (?!&mut impl)([^,)]+)", head.split("requires")[0])
            kept = tuple(f"{n}: {t}" for n, t in parameters)
            for i in range(len(kept) - 2):
                groups[kept[i:i + 3]].append(name)
    for fact, names in sorted(facts.items()):
        if len(set(names)) >= 3:
            yield f"fact {fact}: {len(set(names))} functions"
    for group, names in sorted(groups.items()):
        if len(names) >= 3:
            yield f"parameters ({', '.join(group)}): {len(names)} functions"


def beside(files):
    """6: an array with its length or count beside it, levels one by one."""
    for path, text in files.items():
        for kind, name, body in ITEM.findall(code_of(text)):
            if kind != "struct":
                continue
            if re.search(r"\[\w+; \w+\]", body) and re.search(r"\b(?:length|count|hashed|total|n): ", body):
                yield f"{path}: struct {name}: an array with a number beside it"
            if len(re.findall(r"level\d: |w\d+: ", body)) > 2:
                yield f"{path}: struct {name}: places one by one"


def switches(files):
    """7: a number or a flag that says which step to run; tables of functions."""
    for path, text in files.items():
        for name, line, head, body in functions(code_of(text)):
            if re.search(r"\bfn\(", head) or re.search(r"\[\s*fn\b", body):
                yield f"{path}:{line}: {name}: a pointer to a function"
            if len(re.findall(r"(?:if|else if) \(?(?:i|kind|mode|step|which) == \d", body)) >= 2:
                yield f"{path}:{line}: {name}: a switch on a number"


def answers(files):
    """8: answers in proof files, by crate."""
    counts = collections.Counter()
    for path, text in files.items():
        counts[path.split("/")[1]] += len(re.findall(r"^pub [^:]+ : \(?goal\.", text, re.M))
    for crate, count in sorted(counts.items()):
        yield f"{crate}: {count}"


POINTS = [shaped, twins, loops, by_hand, together, beside, switches, answers]


def main():
    parser = argparse.ArgumentParser(description=__doc__.split("\n")[0])
    parser.add_argument("--commit")
    parser.add_argument("--point", type=int, choices=range(1, 9))
    parser.add_argument("--count", action="store_true", help="only how many there are")
    options = parser.parse_args()
    files = read(options.commit)
    proofs = {path: text for path, text in files.items() if path.endswith("Answers.antt")}
    sources = {path: text for path, text in files.items() if path not in proofs}
    for number, point in enumerate(POINTS, 1):
        if options.point in (None, number):
            found = list(point(proofs if point is answers else sources))
            print(f"{number}. {point.__doc__} {len(found)}")
            if not options.count:
                print("".join(f"   {line}\n" for line in found), end="")


if __name__ == "__main__":
    main()
