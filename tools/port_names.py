#!/usr/bin/env python3
"""Brings the repository's own definitions and lemmas to snake case: `usage: python3 tools/port_names.py [--show]`, once, at the top,
right after port.py. Types, facts and modules keep their capitals; functions of src/, exported names, strings, inputs and outputs
stay. It goes by text: what is declared by a signature in specs/ or proofs/ is renamed wherever it is named in .antt, in .rt outside
strings, in must-fail edits and, between backquotes, in comments and pages."""
import collections
import os
import re
import sys

NAME = r"[A-Za-z_\u2080-\u2089][A-Za-z0-9_'\-\u2080-\u2089\u2115\u2124\u2113\u03a3]*"
SIGNATURE = re.compile(r"^\s*(?:(?:pub|abbrev|unfoldable|ruleset)\s+)*((?:" + NAME + r"\s+)*" + NAME + r")\s+:(?:\s+(.*))?$")
TOKEN = re.compile(r"(?<![A-Za-z0-9_'\-\u2080-\u2089\u25cc])" + NAME)
WORDS = {"let", "in", "pub", "abbrev", "unfoldable", "record", "data", "module", "field", "where", "open", "use", "elim", "as", "ruleset", "syntax"}
# Names that would fall together with another name, or would not say what they said.
GIVEN = {"is_base": "of_base", "is-even": "of_even", "is-other": "of_other", "byTests": "by_each_test", "end_list": "end_list_lem", "endList": "end_list", "all_done": "all_done", "at_place": "at_place", "by_tests": "by_tests", "entry_of": "entry_of", "entry_at": "entry_at"}


def snake(name):
    name = name.replace("getD", "get_or")
    name = re.sub(r"([a-z0-9])([A-Z])", lambda m: m[1] + "_" + m[2].lower(), name)
    return name.replace("-", "_")


def files(*ends):
    for top in ("crates", "docs", "README.md"):
        if os.path.isfile(top):
            if top.endswith(ends):
                yield top
            continue
        for folder, dirs, names in os.walk(top):
            dirs[:] = sorted(d for d in dirs if d != "out")
            for n in sorted(names):
                if n.endswith(ends):
                    yield os.path.join(folder, n)


def read(p):
    with open(p, encoding="utf-8") as f:
        return f.read()


def statements(t):
    """The text's lines without comments."""
    for l in t.split("\n"):
        yield l.split(" --")[0] if not l.lstrip().startswith("--") else ""


def imports(t, own):
    """The names that a text imports, of the repository's crates or of the library."""
    found = set()
    for m in re.finditer(r"(?:^|\n)(?:pub )?(?:ghost )?(?:pub )?use ([\w.\u00b7]+?)\.\{([^}]*)\}", t):
        first = m[1].split(".")
        mine = first[0] == "Rattle" and os.path.isdir(os.path.join("crates", first[1]))
        if mine == own:
            found.update(re.split(r"[\s,]+", m[2].strip()))
    return found


def declared():
    names, needs, fields = collections.defaultdict(set), collections.defaultdict(set), set()
    for p in files(".antt"):
        inside = None
        for l in statements(read(p)):
            if not l.strip():
                continue
            deep = len(l) - len(l.lstrip())
            if inside is not None and deep <= inside:
                inside = None
            if re.match(r"\s*(pub )?(record|data) \S", l) and l.rstrip().endswith("where"):
                inside = deep
                continue
            m = SIGNATURE.match(l)
            if not m or "=" in l.split(" : ")[0]:
                continue
            for x in m[1].split():
                if x in WORDS:
                    continue
                typ = m[2] or ""
                if typ.startswith(("tie.", "goal.")) or re.match(r"\{M : Type 1\} \u2192 statement M", typ):
                    needs[p].add(x)
                else:
                    names[x].add(p)
                    if inside is not None:
                        fields.add(x)
    return names, needs, fields


def plan():
    names, needs, fields = declared()
    library = set()
    for p in files(".antt", ".rt"):
        library |= imports(read(p), False)
    turned = {}
    for x in names:
        if not re.match(r"[a-z]", x) or not re.search(r"-|[a-z0-9][A-Z]", x) or re.search(r"[^A-Za-z0-9_'\-\u2080-\u2089]", x):
            continue
        turned[x] = GIVEN.get(x, snake(x))
    # Of names that would fall together, a definition or a field keeps the plain one, and a lemma's gets '_lem'.
    falls = collections.defaultdict(set)
    for x in names:
        falls[turned.get(x, x)].add(x)
    for new, olds in sorted(falls.items()):
        if len(olds) > 1:
            def rank(x):
                return (not any("/specs/" in p for p in names[x]), x not in fields, "-" in x, x == new)
            for x in sorted(olds, key=rank)[1:]:
                turned[x] = GIVEN.get(x, new + "_lem")
    for x, new in GIVEN.items():
        if x in names and x != new:
            turned[x] = new
    count = collections.Counter(turned.get(x, x) for x in names)
    for x in sorted(turned):
        if count[turned[x]] > 1 or turned[x] in library:
            print("look:", x, turned[x], sorted(names[x])[:3], "(library)" if turned[x] in library else "", file=sys.stderr)
    return turned, needs, fields


def comment(text, turned):
    text = re.sub(r"`([^`\n]*)`", lambda m: "`" + TOKEN.sub(lambda k: turned.get(k[0], k[0]), m[1]) + "`", text)
    return TOKEN.sub(lambda k: turned.get(k[0], k[0]) if re.search(r"[a-z0-9][A-Z]", k[0]) else k[0], text)


def statement(text, turned, fields):
    def one(m):
        x = m[0]
        behind = text[max(0, m.start() - 1):m.start()]
        if behind == "." and not text[:m.start()].endswith("..") and x not in fields:
            before = re.search(r"([\w.']+)\.$", text[:m.start()])
            if not (before and re.search(r"(^|\.)[A-Z]\w*$", before[1])):
                return x
        if behind == "." and re.fullmatch(r"[a-z0-9_]+", x):
            return x
        return turned.get(x, x)
    return TOKEN.sub(one, text)


def main():
    turned, needs, fields = plan()
    if "--show" in sys.argv:
        for x in sorted(turned):
            print(x, turned[x])
        return
    for p in files(".antt", ".rt", ".edit", ".md"):
        t = read(p)
        if p.endswith(".md"):
            new = comment(t, turned)
        else:
            mine = {x: y for x, y in turned.items() if x not in needs.get(p, ())}
            outside = imports(t, False)
            mine = {x: y for x, y in mine.items() if x not in outside}
            if p.endswith(".rt"):
                mine = {x: y for x, y in mine.items() if not re.fullmatch(r"[a-z0-9_]+", x)}
            mark = "//" if p.endswith(".rt") else "--"
            out = []
            for l in t.split("\n"):
                if p.endswith(".edit"):
                    out.append(statement(l, mine, fields) if l.startswith(("old:", "new:")) else l)
                    continue
                at = 0 if l.lstrip().startswith(mark) else l.find(" " + mark + " ")
                code, rest = (l, "") if at < 0 else (l[:at], l[at:])
                if p.endswith(".rt"):
                    code = "".join(c if i % 2 else statement(c, mine, fields) for i, c in enumerate(re.split(r'("(?:[^"\\]|\\.)*")', code)))
                else:
                    code = statement(code, mine, fields)
                out.append(code + comment(rest, mine))
            new = "\n".join(out)
        if new != t:
            with open(p, "w", encoding="utf-8") as f:
                f.write(new)


main()
