#!/usr/bin/env python3
"""places.py [-l] [-C FOLDER] [FORM..]: places of src/ that may still have an older form, and how many of each.

It goes by text, so a line here is a place to look at and not a fault. -l lists the places; -C looks at another checkout.
Tests are left out. The forms: answers, numbers, twins, loops, conversions, parameters, clauses, slices, switches, proofs.
"""
import collections
import pathlib
import re
import sys

TOP = pathlib.Path(__file__).resolve().parent.parent
IDENT = r"[A-Za-z_][A-Za-z_0-9]*"


def sources():
    for path in sorted(TOP.glob("crates/*/src/**/*.rt")):
        if path.name != "tests.rt":
            yield path, path.read_text()


def where(path, text, at):
    return f"{path.relative_to(TOP)}:{text.count(chr(10), 0, at) + 1}"


def matching(patterns):
    found = []
    for path, text in sources():
        for number, line in enumerate(text.split("\n"), 1):
            code = line.split("//")[0]
            if any(re.search(p, code) for p in patterns):
                found.append((f"{path.relative_to(TOP)}:{number}", line.strip()))
    return found


def functions():
    """Each function: path, text, place, name, parameters, clauses, body."""
    for path, text in sources():
        for m in re.finditer(rf"\bfn ({IDENT})", text):
            i, depth = m.end(), 0
            if text[i : i + 1] == "<":
                while True:
                    depth += {"<": 1, ">": -1}.get(text[i], 0) if text[i - 1 : i + 1] != "->" else 0
                    i += 1
                    if depth == 0:
                        break
            if text[i : i + 1] != "(":
                continue
            start = i + 1
            while True:
                depth += {"(": 1, ")": -1}.get(text[i], 0)
                i += 1
                if depth == 0:
                    break
            params = [p.strip() for p in re.split(r",\s*(?![^<(\[]*[>)\]])", text[start : i - 1]) if p.strip()]
            clauses = []
            head = re.match(r"[^;{]*?(?=\s(?:requires|ensures)\b|\s*[;{])", text[i:])
            result = head.group(0) if head else ""
            i += len(result)
            while True:
                c = re.match(rf"\s*(requires|ensures)(?: {IDENT})? \{{([^\n]*)\}}(;?)[ \t]*(?=\n)", text[i:])
                if not c:
                    break
                clauses.append((c.group(1), c.group(2).strip()))
                i += c.end()
                if c.group(3):
                    break
            while i < len(text) and text[i].isspace():
                i += 1
            body = ""
            if text[i : i + 1] == "{":
                j, depth = i, 0
                while True:
                    depth += {"{": 1, "}": -1}.get(text[j], 0)
                    j += 1
                    if depth == 0:
                        break
                body = text[i:j]
            yield path, text, m.start(), m.group(1), params, result, clauses, body


def answers():
    "matches that hand None or Err on, flags as answers, answers in a pair, enums with two or three cases"
    found = matching(
        [
            r"None => (None|Err|return|false|Ok\(None)",
            r"Err\(\w+\) => (None|Err|return|false)",
            r"Some\(\w+\) => (Ok\(|Some\(\w+\),|true)",
            r"Ok\(\w+\) => (Ok\(\w+\)|Some\()",
            r"-> [^;{]*Result<(bool|Option<)",
            r"-> \([^)]*, (bool|Option<[^)]*>)\)",
        ]
    )
    for path, text in sources():
        for m in re.finditer(rf"enum ({IDENT})[^{{]*\{{(.*?)\n\}}", text, re.S):
            cases = re.findall(r"^    ([A-Z]\w*)", m.group(2), re.M)
            if len(cases) <= 3:
                found.append((where(path, text, m.start()), f"enum {m.group(1)}: {', '.join(cases)}"))
    return found


def numbers():
    "numerals as patterns or arguments where a kind is meant, and kinds taken as numbers"
    return matching([r"^\s*\d+(\.\.=\d+)? =>", r"\bclass: u8", r"^\s*[4-6],$", r"\b(operation|breach|self) as u8", r"\b(bank|kind): u8"])


def twins():
    "functions of the same text but for types, numbers, texts and their own name"
    groups = collections.defaultdict(list)
    for path, text, at, name, params, result, clauses, body in functions():
        whole = ", ".join(params) + result + body
        tokens = re.findall(rf'"[^"]*"|{IDENT}|\d[\d_xa-f]*|\S', whole)
        shape = []
        for token in tokens:
            if token == name:
                token = "F"
            elif token[0].isdigit():
                token = "N"
            elif token[0] == '"':
                token = "S"
            elif token[0].isupper():
                token = "T"
            elif token in ("left", "right"):
                token = "side"
            shape.append(token)
        if len(re.findall(rf"{IDENT}|\d+|\S", body)) >= 9:
            groups[" ".join(shape)].append((where(path, text, at), name))
    found = []
    for same in groups.values():
        if len(same) > 1:
            found += [(place, f"{name}, like {', '.join(sorted({n + ' in ' + p.split(':')[0] for p, n in same if p != place}))}") for place, name in same]
    return found


def loops():
    "loops over a range of numbers, while and loop"
    return matching([r"\bfor \w+ in [^{]*\.\.", r"\bwhile\b", r"\bloop\b"])


def conversions():
    "conversions, orders, equalities, starts and printing in functions of their own"
    plain = r"(u8|u16|u32|u64|usize|bool|char|&str|&'static str|Self|[A-Z]\w*|Option<(u8|u16|[A-Z]\w*)>)"
    found = []
    for path, text, at, name, params, result, clauses, body in functions():
        one = len(params) == 1 and re.fullmatch(rf"(self|\w+: {plain})", params[0]) and re.fullmatch(rf"\s*-> {plain}", result)
        if one or name.startswith("write_") or name in ("differs", "is_same", "differ", "earlier") or (name == "new" and not params):
            found.append((where(path, text, at), f"fn {name}({', '.join(params)}){result}"))
    return found


def parameters():
    "two parameters that stand together in three functions or more"
    together = collections.defaultdict(list)
    for path, text, at, name, params, result, clauses, body in functions():
        named = [p for p in params if ":" in p and not p.startswith(("f:", "out:", "rt:"))]
        for i, a in enumerate(named):
            for b in named[i + 1 :]:
                together[f"{a}, {b}"].append(where(path, text, at) + " " + name)
    return [(f"{len(at)} functions", pair + ": " + "; ".join(at)) for pair, at in sorted(together.items()) if len(at) >= 3]


def clauses():
    "requires that stand in three functions or more"
    same = collections.defaultdict(list)
    for path, text, at, name, params, result, cls, body in functions():
        for kind, clause in cls:
            if kind == "requires":
                for fact in re.split(r" × ", clause.replace("(", "").replace(")", "")):
                    same[re.sub(r"^ *|\b(status|operands)\.(now|old) *", "", fact).strip()].append(where(path, text, at) + " " + name)
    return [(f"{len(at)} functions", fact + ": " + "; ".join(at)) for fact, at in sorted(same.items()) if len(at) >= 3]


def slices():
    "two slices or arrays side by side, and a count beside a slice"
    found = []
    for path, text, at, name, params, result, cls, body in functions():
        lists = [p for p in params if re.search(r": &(mut )?\[", p)]
        counts = [p for p in params if re.fullmatch(r"(n|count|len|length): usize", p)]
        if len(lists) > 1 or (lists and counts):
            found.append((where(path, text, at), f"fn {name}({', '.join(lists + counts)})"))
    for path, text in sources():
        for m in re.finditer(rf"struct ({IDENT})[^{{;]*\{{(.*?)\n\}}", text, re.S):
            lists = re.findall(r"^    (?:pub(?:\(crate\))? )?(\w+: [^\n]*\[[^\n]*),", m.group(2), re.M)
            if len(lists) > 1:
                found.append((where(path, text, m.start()), f"struct {m.group(1)}: {', '.join(lists)}"))
    return found


def switches():
    "enums that no other crate sees"
    return matching([rf"^(pub\(crate\) )?enum ", rf"^pub enum (Kind|Next)"])


def proofs():
    "answers and lemmas of proofs/, and their lines"
    answers = lemmas = lines = files = 0
    for path in TOP.glob("crates/*/proofs/**/*.antt"):
        text = path.read_text()
        files += 1
        lines += text.count("\n")
        answers += len(re.findall(r"^pub [^\n]*: goal\.", text, re.M))
        lemmas += len(re.findall(r"^(?:abbrev )?(?:pub )?[a-z][^\n=]* : (?!goal\.)", text, re.M)) if "use " in text else 0
    return [(str(files), "files"), (str(answers), "answers"), (str(lemmas), "lemmas and helpers"), (str(lines), "lines")]


FORMS = [answers, numbers, twins, loops, conversions, parameters, clauses, slices, switches, proofs]


def main(words):
    global TOP
    listed = "-l" in words
    names = [w for w in words if w != "-l"]
    if "-C" in names:
        at = names.index("-C")
        TOP = pathlib.Path(names[at + 1]).resolve()
        del names[at : at + 2]
    for form in FORMS:
        if names and form.__name__ not in names:
            continue
        found = form()
        if form is proofs:
            print("proofs: " + ", ".join(f"{a} {b}" for a, b in found))
            continue
        print(f"{form.__name__}: {len(found)}  ({form.__doc__})")
        if listed:
            for place, line in found:
                print(f"    {place}  {line}")
    return 0


if __name__ == "__main__":
    sys.exit(main(sys.argv[1:]))
