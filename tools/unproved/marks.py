"""marks.py IR.ll NAME=ROOT.rt..: prints 'MARK FUNCTION' for each function of the IR whose source has a mark for inlining."""
import os, re, sys
head = re.compile(r"^(\s*)(?:ghost )?(?:unsafe )?impl\b(.*)$")
trait = re.compile(r"^(\s*)(?:pub(?:\([^)]*\))? )?(?:unsafe )?trait (\w+)")
function = re.compile(r"^(\s*)(?:pub(?:\s*\([^)]*\))?\s+)?(?:const\s+)?(?:unsafe\s+)?(?:extern\s+\"C\"\s+)?fn (\w+)")
module = re.compile(r"^\s*(?:pub(?:\([^)]*\))? )?mod (\w+) \{")


def without_generics(text):
    out, depth, i = "", 0, 0
    while i < len(text):
        c = text[i]
        if c == "<":
            depth += 1
        elif c == ">" and text[i - 1] != "-":
            depth -= 1
        elif depth == 0:
            out += c
        i += 1
    return out


def words_of(kind):
    """Returns how the names of functions of an impl for this type begin, as good as can be said."""
    kind = without_generics(kind).strip()
    ref = ""
    while kind.startswith("&"):
        ref, kind = ref + "Ref", re.sub(r"^&\s*(?:'\w+\s*)?(?:mut )?", "", kind)
    if kind.startswith("("):
        return ref + f"Tuple{kind.count(',') + (not kind.rstrip(') ').endswith(','))}"
    if kind.startswith("["):
        return ref + "Slice"
    kind = kind.split("::")[-1]
    if re.fullmatch("[A-Z][0-9]?", kind):
        kind = "" if ref else "Any"
    return ref + kind[:1].upper() + kind[1:]


def shapes(text):
    text = re.sub(r"^\s*<", "<", text)
    if text.startswith("<"):
        depth = 0
        for i, c in enumerate(text):
            depth += (c == "<") - (c == ">" and text[i - 1] != "-")
            if depth == 0:
                text = text[i + 1 :]
                break
    text = text.split(" where ")[0].split("{")[0]
    if " for " in text:
        first, kind = text.split(" for ", 1)
        return words_of(kind) + without_generics(first).strip().split("::")[-1]
    return words_of(text)


inherent = {}  # (crate, type, function) -> marks
marks = {}  # (module, function) -> {impl shape: mark}
for word in sys.argv[2:]:
    name, root = word.split("=", 1)
    top = os.path.dirname(root)
    for at, _, files in os.walk(top):
        for file in files:
            if not file.endswith(".rt"):
                continue
            path = os.path.relpath(f"{at}/{file}", top)[:-3].split("/")
            if path[-1] in ("mod", "lib", "main"):
                path = path[:-1]
            base = "::".join([name, *path])
            shape, indent, mark = "", -1, None
            for line in open(f"{at}/{file}", encoding="utf-8"):
                text = line.strip()
                if line.startswith("}"):
                    shape = ""
                found = head.match(line) or trait.match(line)
                if found and len(found[1]) == 0:
                    rest = line.strip()
                    rest = rest[rest.index("impl") + 4 :] if head.match(line) else found[2]
                    shape = shapes(rest) if head.match(line) else found[2]
                if text.startswith("#["):
                    if "inline(always)" in text:
                        mark = "always"
                    elif "cold" in text:
                        mark = "cold"
                    elif "inline(never)" in text and mark != "cold":
                        mark = "never"
                    continue
                found = function.match(line)
                if found:
                    at_fn = marks.setdefault((base, found[2]), {})
                    at_fn[shape if found[1] else ""] = mark
                    if found[1] and shape:
                        inherent.setdefault((name, shape, found[2]), set()).add(mark)
                    mark = None
                elif text and not text.startswith("//"):
                    mark = None
for line in open(sys.argv[1]):
    if not line.startswith("define internal"):
        continue
    found = re.match(r'define internal .*?@"([^"]+)"\(', line)
    if not found:
        continue
    whole = found[1]
    plain = whole.split("::<")[0].split("+")[0] if "+" in whole.split("::<")[0].split("::")[-1] else whole.split("::<")[0]
    parts = plain.split("::")
    name = parts[-1]
    own = marks.get(("::".join(parts[:-1]), name))
    if own and "" in own:
        mark = own[""]
    else:
        own = marks.get(("::".join(parts[:-2]), name)) if len(parts) > 2 else None
        if not own and len(parts) > 2:
            # An inherent impl may lie in another module than its type.
            found = inherent.get((parts[0], parts[-2], name))
            own = {parts[-2]: next(iter(found))} if found and len(found) == 1 else None
            if found and not own:
                print(f"unsure {plain} {found}", file=sys.stderr)
        if not own:
            continue
        kind = re.sub(r"\+[^+]*\+", "", parts[-2])
        if kind in own:
            mark = own[kind]
        elif len(set(own.values())) == 1:
            mark = next(iter(own.values()))
        else:
            near = [m for s, m in own.items() if s and (kind.startswith(s[:4]) or kind.endswith(s[-5:]))]
            mark = near[0] if near and len(set(near)) == 1 else None
            if any(own.values()):
                print(f"unsure {kind} {name} {own}", file=sys.stderr)
    if mark:
        print(mark, whole)
