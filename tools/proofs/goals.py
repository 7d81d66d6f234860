"""What tools/proofs/goals has written of a function: the facts that hold at each of its goals, by their paths into `c`."""
import pathlib
import re
import sys

SYMBOLS = {"◌<◌": "<", "◌≤◌": "≤", "◌≡◌": "≡", "◌≢◌": "≢"}
PARTS = re.compile(r"(Own|Step|Arm|Typed|Kept)-|Ranges$")
VALUES = re.compile(r"(Args|Last-\d+|Arm\.Of|Kinds\.Dens?|Lifetimes\.\S+|List\.List|Nat\.ℕ)$")
CHANGING = re.compile(r".*-(1|raw|own)$|(far|known|long|told)-|end-fits$")


def folder(crate):
    """Where the prints of a crate stand."""
    return pathlib.Path("target/goals", crate)


def missing(crate, function, command):
    """Ends with what is to be run first."""
    sys.exit(f"no goals of {function} below {folder(crate)}: run `tools/proofs/goals {command}` at the repository's root, "
             f"and name the function as in crates/{crate}/proofs")


def read(crate, name):
    """The lines of a file below target/goals of a crate, none if it is not there."""
    path = folder(crate) / f"{name}.antt.txt"
    return path.read_text().split("\n") if path.is_file() else []


def printed(crate, function, command):
    """The names of the prints of a function, named as in proofs/: FUNCTION or MODULE/FUNCTION. Without them it ends with the command that writes them."""
    before, _, last = function.rpartition("/")
    for name in (last, f"+{last}"):
        found = sorted((folder(crate) / before / name).glob("Lts*.antt.txt"))
        if found:
            return [str(path.relative_to(folder(crate))).removesuffix(".antt.txt") for path in found]
    missing(crate, function, command)


def whole(lines, number, text):
    """The text that begins in a line, with the lines below it that stand further in, or that close what is open."""
    margin = len(lines[number]) - len(lines[number].lstrip())
    for line in lines[number + 1:]:
        if not line or len(line) - len(line.lstrip()) <= margin and line.lstrip()[0] not in ")}":
            break
        text += " " + line.strip()
    return text.strip()


def head(type):
    """The first word of a type, or the projection of what it takes it from: `gives` of `(s0 x).gives (m0 y)`."""
    if not type.startswith("("):
        return (type.split() or [""])[0]
    depth = 0
    for place, sign in enumerate(type):
        depth += (sign in "({") - (sign in ")}")
        if depth == 0:
            after = re.match(r"\.(\S+)", type[place + 1:])
            return after[1] if after else "→"
    return ""


def kind(type):
    """What a fact is: `<`, `≤`, `≡`, with `true` or `false` of a test's value, `→ ⊥` where it is denied, or the first word of its type."""
    word = head(type).split(".")[-1]
    word = SYMBOLS.get(word, word)
    value = re.search(r"Bool'?\.(true|false)$", type) if word == "≡" else None
    return word + (f" {value[1]}" if value else " → ⊥" if type.endswith("→ ⊥") else "")


def records(lines):
    """The records of a print, each with its fields, and the record that each goal is over."""
    found, needs, now, margin = {}, {}, None, 0
    for number, line in enumerate(lines):
        start = re.match(r"( +)pub record (\S+)", line)
        field = re.match(r"( +)pub (\S+) :(.*)$", line)
        need = re.match(r" +(?:Need|Named)-(\S+) =(.*)$", line)
        if line and not start and len(line) - len(line.lstrip()) <= margin:
            now = None
        if start:
            now, margin = start[2], len(start[1])
            found[now] = []
        elif field and now and len(field[1]) == margin + 2:
            found[now].append((field[2], whole(lines, number, field[3])))
        elif need:
            over = re.search(r"\(c : (?:Lts\S*\.)?([^\s.)]+)", whole(lines, number, need[2]))
            if over:
                needs.setdefault(need[1], over[1])
    return found, needs


def calls(lines):
    """The names that stand for what a call gives."""
    return {line.split()[0] for number, line in enumerate(lines) if re.match(r" +Own-\S+ =", line) and "Called." in whole(lines, number, line)}


def last(word):
    """A name without the module before it."""
    return re.sub(r"^Lts\S*?\.", "", word)


def inside(found, of_calls, path, owner, name, type):
    """The facts in a field of a record: the path of each and what it is. A value is none, nor is a name that may change."""
    word = last(head(type))
    if CHANGING.match(name) and not path.endswith(".auto") or VALUES.match(head(type)) or re.search(r"\.(Denot|Mod)$", type):
        return
    if word in of_calls or type.startswith("the-claims") or "-claims." in word:
        yield f"{path}.{name}" + ("" if name == "ensures" else ".ensures"), "call"
    elif name in ("ensures", "is"):
        yield f"{path}.{name}", name
    elif word.startswith("Came-"):
        yield f"{path}.{name}", "⊎"
    elif word in found and PARTS.match(word):
        for inner, text in found[word]:
            yield from inside(found, of_calls, f"{path}.{name}", word, inner, text)
    elif word == "let":
        types = dict(re.findall(r"(the-K\S*) : Type 0 = (.*?) in(?= let | record )", type))
        for inner, text in re.findall(r"(\S+) : (the-K[^\s;}]*)", type.rpartition("record {")[2]):
            yield from inside(found, of_calls, f"{path}.{name}", word, inner, types.get(text, text))
    else:
        yield f"{path}.{name}", kind(type)


def facts(found, of_calls, record):
    """The facts from a record back to the function's entry: the path into `c` and what it is."""
    seen = []
    while record in found:
        before = ""
        for name, type in found[record]:
            if name == "before":
                before = last(head(type))
            else:
                seen += inside(found, of_calls, "c", record, name, type)
        record = before
    return seen


def points(found, record):
    """The points from a record back to the function's entry, each by the name of what it has."""
    names = []
    while record in found:
        fields = dict(found[record])
        names.append(next(name for name in fields if name != "before") if "before" in fields else "start")
        record = last(head(fields.get("before", "")))
    return names


def needs(crate, function):
    """The goals of a function in order, each with its facts."""
    answer = {}
    for name in printed(crate, function, f"{crate} {function}"):
        lines, view = read(crate, name), read(crate, f"{name}/View")
        found, over = records(lines)
        seen, named = records(view)
        answer |= {goal: facts(found | seen, calls(lines), record) for goal, record in (named or over).items()}
    return answer
