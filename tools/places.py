#!/usr/bin/env python3
"""Lists the places of src/ that a newer form could replace, by kind of place.

    python3 tools/places.py          counts of every kind
    python3 tools/places.py 3        the places of the kinds whose names begin with 3
    python3 tools/places.py 3 DIR    of the checkout in DIR

A place is a line (or a pair of functions, or a set of parameters) that one of the patterns below finds. The patterns go by text: they
find more than what should change, and docs/DESIGN-PASS.md says of each place what became of it.
"""
import difflib
import itertools
import pathlib
import re
import sys

ROOT = pathlib.Path(sys.argv[2] if len(sys.argv) > 2 else ".")
NUMBERS = r"(u8|u16|u32|u64|usize)"


def sources():
    for path in sorted(ROOT.glob("crates/*/src/**/*.rt")):
        yield path, path.read_text().split("\n")


def code(line):
    """The line without its comment; empty for lines that only proofs read."""
    line = re.sub(r"//.*", "", line)
    return "" if re.match(r"\s*(ghost|requires|ensures)\b", line) else line


def lines_with(pattern):
    for path, lines in sources():
        for number, line in enumerate(lines, 1):
            if re.search(pattern, code(line)):
                yield f"{path.relative_to(ROOT)}:{number}: {line.strip()}"


def functions():
    """Each function: file, line, name, the text from `fn` to the end of its block."""
    for path, lines in sources():
        text = "\n".join(lines)
        for found in re.finditer(r"^[ ]*(pub(\([a-z]+\))? )?fn (\w+)", text, re.M):
            depth, at, began = 0, found.end(), False
            while at < len(text) and not (began and depth == 0):
                if text[at] == "{":
                    depth, began = depth + 1, True
                elif text[at] == "}":
                    depth -= 1
                    # the braces of a clause come before those of the block
                    if depth == 0 and re.match(r"\s*(where|requires|ensures|ghost|\{)", text[at + 1:]):
                        began = False
                elif text[at] == ";" and depth == 0:
                    break
                at += 1
            yield path.relative_to(ROOT), text.count("\n", 0, found.start()) + 1, found.group(3), text[found.start():at]


def plain(text):
    """The function without its clauses and comments."""
    kept = [code(line) for line in text.split("\n")]
    return "\n".join(line for line in kept if line.strip())


def parameters(text):
    """The names and types of a function's parameters."""
    inner = re.search(r"fn \w+(?:<.*?>)?\((.*?)\)\s*(->|\{|where|requires|ensures|$)", plain(text), re.S)
    return re.findall(r"(\w+): ([^,]+(?:<[^>]*>)?)", inner.group(1)) if inner else []


def option_like():
    for path, lines in sources():
        text = "\n".join(lines)
        for found in re.finditer(r"enum (\w+)[^{]*\{(.*?)\n\}", text, re.S):
            body = re.sub(r"//.*", "", found.group(2))
            body = re.sub(r"\{[^}]*\}", "()", body)
            variants = re.findall(r"^\s+(\w+)(\(?)", body, re.M)
            if len(variants) <= 2:
                yield f"{path.relative_to(ROOT)}:{text.count(chr(10), 0, found.start()) + 1}: enum {found.group(1)}"


def alike(threshold=0.9, least=30):
    """Pairs of functions whose blocks have the same shape: names, types and numbers aside."""
    shapes = []
    for path, line, name, text in functions():
        tokens = re.findall(r"\w+|[^\w\s]", plain(text))
        shape = ["N" if re.match(r"\d|[a-z_A-Z]\w*$", t) and t not in KEYWORDS else t for t in tokens]
        if len(shape) >= least:
            shapes.append((f"{path}:{line}: {name}", shape))
    for (one, a), (other, b) in itertools.combinations(shapes, 2):
        match = difflib.SequenceMatcher(None, a, b, autojunk=False)
        if match.real_quick_ratio() >= threshold and match.quick_ratio() >= threshold and match.ratio() >= threshold:
            yield f"{one} | {other}"


KEYWORDS = {"fn", "for", "in", "if", "else", "let", "mut", "match", "return", "while", "loop", "self", "Self", "Some", "None", "Ok", "Err"}


def alike_types():
    shapes = {}
    for path, lines in sources():
        text = "\n".join(lines)
        for found in re.finditer(r"struct (\w+)[^{;(]*\{(.*?)\n\}", text, re.S):
            fields = re.findall(r"^\s+(?:pub(?:\([a-z]+\))? )?(\w+):", re.sub(r"//.*|ghost.*", "", found.group(2)), re.M)
            shapes.setdefault(tuple(sorted(fields)), []).append(f"{path.relative_to(ROOT)}: {found.group(1)}")
    for fields, names in shapes.items():
        if len(names) > 1:
            yield " | ".join(names) + f" (fields {', '.join(fields)})"


def alike_constants():
    values = {}
    for line in lines_with(r"^\s*(pub )?const \w+: "):
        found = re.search(r"^(.*?):\d+:.*const (\w+): (.*?) = (.*)", line)
        if found:
            values.setdefault((found.group(3), found.group(4)), []).append(f"{found.group(1)} {found.group(2)}")
    for (kind, value), names in values.items():
        if len(names) > 1 and value != "{":
            yield " | ".join(names) + f" ({kind} = {value})"


def index_loops():
    """Loops over a range or with an index, whose number is used as an index of a list in the block."""
    for path, lines in sources():
        for number, line in enumerate(lines):
            found = re.search(r"\bfor (\w+) in [^{]*\.\.", code(line)) or re.search(r"\bfor \((\w+), \w+\) in .*enumerate", code(line))
            if not found:
                continue
            indent = re.match(r"\s*", line).group(0)
            block = list(itertools.takewhile(lambda l: not l.startswith(indent + "}"), lines[number + 1:]))
            name = found.group(1)
            if any(re.search(rf"\w\[[^\]]*\b{name}\b[^\]]*\]|\.(get|read)\({name}\)|\w\([^)]*\b{name}\b[^)]*\) (<|>|==|!=) ", code(l)) for l in block):
                yield f"{path.relative_to(ROOT)}:{number + 1}: {line.strip()}"


def search_loops():
    for path, line, name, text in functions():
        if re.search(r"for .*\{[^}]*(if|match)[^}]*\{[^}]*return[^}]*\}[^}]*\}\s*(true|false|None|b\"\"|Ok\(\(\)\))\s*$", plain(text).rstrip().rstrip("}").rstrip() , re.S):
            yield f"{path}:{line}: {name}"


def repeated_facts(least=3):
    """Facts that stand as premises of three or more functions."""
    where = {}
    for path, line, name, text in functions():
        facts = set()
        for clause in re.findall(r"requires(?: \w+)? \{ (.*) \}", text):
            facts |= {re.sub(r"^\(|\)$", "", f.strip()) for f in re.split(r" × ", clause)}
            facts -= {f for f in facts if f.startswith("Has ")}
        for clause in re.findall(r"ensures(?: \w+)? \{ (.*) \}", text):
            parts = re.split(r" → ", clause)
            facts |= {p.strip() for p in parts[:-1] if re.match(r"[A-Z]\w+ ", p.strip()) and not p.strip().startswith(("Match", "Has", "Members"))}
        for fact in facts:
            key = re.sub(r"\b(self\.|c\.)", "", fact)
            where.setdefault(key.split(" ")[0] if re.match(r"[A-Z]", key) else re.sub(r"\b\w+\b", lambda m: m.group(0) if m.group(0) in ("length", "now", "old") or m.group(0).isdigit() else "x", key), []).append(f"{path}:{line} {name}")
    for fact, names in sorted(where.items()):
        if len(set(names)) >= least:
            yield f"{fact}: {', '.join(sorted(set(names)))}"


def travelling(least=4, share=0.8):
    """Pairs of parameters that stand together in four or more functions, and in most of those that have the rarer one."""
    have, both = {}, {}
    for path, line, name, text in functions():
        names = sorted({f"{n}: {re.sub(chr(39) + r'[a-z_]+ ?', '', t).strip()}" for n, t in parameters(text) if n not in ("rt", "heap")})
        for one in names:
            have.setdefault(one, []).append(name)
        for pair in itertools.combinations(names, 2):
            both.setdefault(pair, []).append(f"{path}:{line} {name}")
    for (a, b), names in sorted(both.items()):
        if len(names) >= least and len(names) >= share * min(len(have[a]), len(have[b])):
            yield f"{a} with {b}: {', '.join(names)}"


def answers():
    """Answers and invariants that the check was given."""
    for path in sorted(ROOT.glob("crates/*/proofs/**/*.antt")):
        for number, line in enumerate(path.read_text().split("\n"), 1):
            found = re.match(r"(?:abbrev )?pub ([\w-]+) : goal\.", line)
            if found:
                yield f"{path.relative_to(ROOT)}:{number}: {found.group(1)}"


def repeated_lemmas():
    """Lemmas of which another one says the same in the same words."""
    says = {}
    for path in sorted(ROOT.glob("crates/*/proofs/**/*.antt")):
        text = re.sub(r"--.*", "", path.read_text())
        for found in re.finditer(r"^ *(?:abbrev )?(?:pub )?([\w']+) :\s(.*?)\n *\1\b", text, re.M | re.S):
            statement = " ".join(found.group(2).split())
            if "→" in statement and "goal." not in statement:
                names = {}
                key = re.sub(r"\b[a-z]\w*'*\b", lambda m: names.setdefault(m.group(0), f"x{len(names)}"), statement)
                says.setdefault(key, []).append(f"{path.relative_to(ROOT)} {found.group(1)}")
    for names in says.values():
        if len(names) > 1:
            yield " | ".join(names)


KINDS = {
    "1a own enums with at most two variants": option_like,
    "1b flags": lambda: lines_with(r"let mut \w+ = (true|false);|\b\w+: bool\b"),
    "1c numbers for kinds and refusals": lambda: lines_with(r"\bnumber: u8\b|\b(kind|last|code): (u16|usize)\b|verdict: \(|-> \(?u8\b|-> u16 \{"),
    "1d values that stand for none": lambda: lines_with(r"=> b\"\"|^\s*b\"\"$|unwrap_or\((0|b\"\")\)"),
    "2a functions of one shape": alike,
    "2b types of one shape": alike_types,
    "2c constants of one value": alike_constants,
    "3a loops whose number is an index": index_loops,
    "3b while and loop": lambda: lines_with(r"\bwhile\b|\bloop \{"),
    "3c counts kept by hand": lambda: lines_with(r"\b\w+ \+= |\b(\w+) = \1(\.wrapping_add| \+ )|^\s*count = "),
    "3d elements written by index": lambda: lines_with(r"\w+\[[a-z]\w*\](\.\w+)? = "),
    "3e searches in a loop": search_loops,
    "4a impls of comparison, conversion and printing": lambda: lines_with(r"^\s*impl(<.*?>)? ([\w:]*)(PartialEq|Eq|PartialOrd|Ord|Hash|Clone|Default|From|TryFrom|Display|Text)(<.*?>)? for"),
    "4b conversions and comparisons as methods": lambda: lines_with(r"\bfn (number|reason|named|code|bits|from_bits|is_less|told|of|word_bytes|long_bytes|put_number|put_bytes)\b"),
    "4c blank values written out": lambda: lines_with(r"const (WORK_ROW|ITEM_ROW|BLANK\w*|NO_NAME|NONE)\b|fn nothing\b"),
    "5a facts that three functions ask": repeated_facts,
    "5b parameters that travel together": travelling,
    "6a arrays of a fixed size used as buffers": lambda: (l for l in lines_with(r"let mut \w+ = \[[^\]]*; [0-9A-Z]\w*\]|^\s*\w+: \[[^\]]*; [0-9A-Z]\w*\]") if "tests.rt" not in l and "trials" not in l),
    "6b a length beside a buffer": lambda: lines_with(r"^\s*(pub )?(len|count|placed): usize"),
    "7a switches on a step, function values": lambda: lines_with(r"\benum (Step|Request)\b|match (step|advance|request)\b|\bdyn\b|: fn\("),
    "8a answers and invariants given to the check": answers,
    "8b lemmas whose statements have one shape": repeated_lemmas,
}


def main():
    wanted = sys.argv[1] if len(sys.argv) > 1 else ""
    for name, find in KINDS.items():
        if not name.startswith(wanted):
            continue
        places = list(find())
        print(f"{name}: {len(places)}")
        if wanted:
            for place in places:
                print(f"    {place}")


main()
