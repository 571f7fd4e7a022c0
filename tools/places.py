"""Lists the places in src/ that the design pass counts, by point: python3 tools/places.py [FOLDER]."""
import collections
import pathlib
import re
import sys

root = pathlib.Path(sys.argv[1] if len(sys.argv) > 1 else ".") / "crates"
files = {p: p.read_text() for p in sorted(root.glob("*/src/**/*.rt"))}
total = collections.Counter()


def show(point, what, path, text, at):
    total[point] += 1
    line = text.count("\n", 0, at) + 1
    print(f"{point}  {path.relative_to(root)}:{line}  {what}")


def functions(text):
    """Each function with its parameters, its result, its clauses and its body."""
    for m in re.finditer(r"\bfn (\w+)(?:<[^(]*>)?\(([^)]*)\)([^{;]*)", text):
        at = m.end()
        head = m.group(3)
        while at < len(text) and text[at] == "{":
            depth, start = 0, at
            while True:
                depth += {"{": 1, "}": -1}.get(text[at], 0)
                at += 1
                if depth == 0:
                    break
            part = text[start:at]
            rest = re.match(r"\s*(?:(?:requires|ensures)\b[^{;]*)?", text[at:])
            if re.search(r"(?:requires|ensures)[^{]*$", text[m.start():start]):
                head += part
                at += rest.end()
            else:
                yield m, [p.strip() for p in m.group(2).split(",") if p.strip()], head, part
                break


patterns = [
    ("1", "refusal returned by hand where ? would do", r"\blet [^;{}]*(?:\{[^}]*\})?[^;{}]*\belse\s*\{\s*return (?:None|Err)\b"),
    ("1", "Option or Result taken apart by hand", r"\bmatch\b[^{;]*\{\s*(?:Some\(\w+\)|Ok\((?:\w+|\(\))\)) => [^;]*?(?:None|Err\(\w+\)) =>"),
    ("1", "Some or None by an if", r"\{\s*(?:Some\([^{}]*\)|None)\s*\}\s*else\s*\{\s*(?:Some\([^{}]*\)|None)\s*\}"),
    ("1", "number for a refusal", r"ok_or\(\d+u8\)"),
    ("1", "number for a kind", r"const \w+: u8 = (?:1[6-9]|2[01]);|pub (?:kind|sense|number): u8"),
    ("1", "number or empty row for none", r"\[0u\w+; HEADS|if mark == 0|marks\.is_empty\(\)|log\.heads == 0"),
    ("3", "while", r"\bwhile\b"),
    ("4", "conversion, comparison or printing by hand", r"fn sense_of|fn word\(|fn compare\b|\.value\(\);\n[^\n]*(?:println|let verdict)"),
    ("6", "binary search by hand", r"while low < high"),
    ("6", "array with its length beside", r"entries: \[\w+; \w+\],\n\s*(?:pub(?:\(crate\))? )?count: \w+"),
    ("6", "parallel array", r"spans: \[\w+; \w+\],\n"),
    ("7", "function pointer, dyn or boxed closure", r"\bdyn\b|: fn\(|Box<"),
]


def block(code, at):
    """The text of the block whose brace opens at this place."""
    depth = 0
    for end in range(at, len(code)):
        depth += {"{": 1, "}": -1}.get(code[end], 0)
        if depth == 0:
            return code[at:end + 1]


for path, text in files.items():
    code = re.sub(r"//[^\n]*", lambda m: " " * len(m.group(0)), text)
    for m in re.finditer(r"\bfor (\w+) in [^{]*\.\.[^{]*\{", code):
        if re.search(rf"\[[^\]]*\b{m.group(1)}\b|\(rule, {m.group(1)}\b", block(code, m.end() - 1)):
            show("3", "loop over the indices of a row", path, code, m.start())
    for point, what, pattern in patterns:
        for m in re.finditer(pattern, code):
            show(point, what, path, code, m.start())

bodies = collections.defaultdict(list)
clauses = collections.defaultdict(list)
for path, text in files.items():
    code = re.sub(r"//[^\n]*", lambda m: " " * len(m.group(0)), text)
    for m, params, head, body in functions(code):
        if "-> bool" in head and any("&mut" in p for p in params):
            show("1", f"bool that refuses: {m.group(1)}", path, code, m.start())
        if len(params) >= 6:
            show("5", f"{len(params)} parameters: {m.group(1)}", path, code, m.start())
        if sum(bool(re.search(r"\bcells\b.*&(?:mut )?\[|\bused: usize", p)) for p in params) == 2:
            show("6", f"cells with how many are used beside: {m.group(1)}", path, code, m.start())
        plain = re.sub(r"\b(?:[A-Z]\w*|\d[\d_]*)\b|\s+|'\w+", "_", body)
        if len(plain) > 12:
            bodies[plain].append((path, code, m))
    for m in re.finditer(r"\b(?:requires|ensures)(?: \w+)? (\{[^\n]*\})\n", code):
        clauses[re.sub(r"\.(?:old|new|now)\b", "", m.group(1))].append((path, code, m))
for same in bodies.values():
    for path, code, m in same[1:]:
        show("2", f"same body as {same[0][2].group(1)} of {same[0][0].relative_to(root)}: {m.group(1)}", path, code, m.start())
fields = collections.defaultdict(list)
for path, text in files.items():
    for m in re.finditer(r"struct (\w+)[^{;]*\{([^}]*(?:\{[^}]*\}[^}]*)*)\}", text):
        plain = re.sub(r"\b\d+\b|\b\w+:", "_", m.group(2))
        fields[plain].append((path, text, m))
for same in fields.values():
    for path, text, m in same[1:]:
        show("2", f"same fields as {same[0][2].group(1)}: {m.group(1)}", path, text, m.start())
for clause, where in clauses.items():
    if len(where) >= 3 and "result" not in clause:
        path, code, m = where[0]
        show("5", f"stands {len(where)} times: {clause}", path, code, m.start())
print(dict(sorted(total.items())))
