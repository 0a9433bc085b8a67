#!/usr/bin/env python3
"""Plants bugs in the code, one at a time, and lists those that the proofs let through.

    tools/planted.py make NAME..    writes target/planted/NAME.txt: for each function some wrong
                                    edits of its body
    tools/planted.py run [NAME..]   tries each edit of a crate's lists on a copy of the repository:
                                    tools/planted/NAME.txt, written by hand, and
                                    target/planted/NAME.txt, if it was made; those of every crate
                                    that has one, if no name is given
    tools/planted.py bare [NAME..]  lists the functions with a contract that no edit of
                                    tools/planted/NAME.txt or of must-fail/ changes

An edit is a block of lines: `plant:` with a name and the function, `file:`, and then pairs of
`old:` and `new:`, one line each, where the old text stands in the file exactly once. An edit ends
as refused (a fact no longer holds), bad (it does not compile, or a proof file names what it took
away, so it says nothing), or survivor. A survivor in a program is also run: it counts as told where
the program prints another output. A line `known:` in a block says why the edit survives: it means
the same, or it touches what no contract can say. The status is 0 where no other edit survives.
"""
import pathlib
import re
import shutil
import subprocess
import sys
import tempfile

TOP = pathlib.Path(__file__).resolve().parent.parent
LISTS = TOP / "tools/planted"
MADE = TOP / "target/planted"
EACH = 5
CODE = r"^\s*(//|#\[|use |pub use |mod |pub mod |ghost |ensures|requires|\}|\{|else \{?$)"
HEAD = re.compile(r"^(\s*)(?:pub(?:\(crate\))? )?(?:const )?(?:extern \S+ )?fn (\w+)")


def functions(lines):
    """The functions of a file but tests: name, lines of the head, lines of the body."""
    at = 0
    tests = False
    while at < len(lines):
        head = HEAD.match(lines[at])
        tests = tests or lines[at].strip() == "#[test]"
        if not head:
            at += 1
            continue
        indent, name = head.groups()
        body = at
        while not (lines[body] == indent + "{" or lines[body].endswith((" {", ";", "{}"))):
            body += 1
        end = body
        if not lines[body].endswith((";", "{}")):
            while lines[end] != indent + "}":
                end += 1
            if not tests:
                yield name, range(at, body), range(body + 1, end)
        tests = False
        at = end + 1


def number(match):
    """The next number, written alike."""
    word = match.group()
    value = int(word.replace("_", ""), 0) + 1
    return f"0x{value:X}" if word.startswith("0x") else str(value)


# Kind, pattern, and what takes its place.
SWAPS = [
    ("compare", r" < ", " <= "),
    ("compare", r" <= ", " < "),
    ("compare", r" > ", " >= "),
    ("compare", r" >= ", " > "),
    ("compare", r" == ", " != "),
    ("compare", r" != ", " == "),
    ("operator", r" \+ ", " - "),
    ("operator", r" - ", " + "),
    ("operator", r" \* ", " + "),
    ("operator", r" / ", " * "),
    ("operator", r" << ", " >> "),
    ("operator", r" >> ", " << "),
    ("operator", r" & ", " | "),
    ("operator", r" \+= ", " = "),
    ("logic", r" && ", " || "),
    ("logic", r" \|\| ", " && "),
    ("logic", r"if !", "if "),
    ("logic", r"if (?!let)", "if !"),
    ("logic", r"\btrue\b", "false"),
    ("logic", r"\bfalse\b", "true"),
    ("range", r"\.\.=", ".."),
    ("range", r"\[(\w+)\.\.\]", "[0..]"),
    ("range", r"\[\.\.(\w+)\]", "[..0]"),
    ("constant", r"(?<![\w.\"'\\])(0x[0-9A-Fa-f_]+|\d[\d_]*)(?![\w\"'])", number),
    ("call", r"\.is_some\(\)", ".is_none()"),
    ("call", r"\.is_none\(\)", ".is_some()"),
    ("call", r"\.any\(", ".all("),
    ("call", r"\.all\(", ".any("),
    ("call", r"saturating_sub", "saturating_add"),
    ("call", r"\.min\(", ".max("),
    ("call", r"\.skip\(", ".take("),
    ("call", r"\.take\(", ".skip("),
    ("case", r"=> Some\(.*\),$", "=> None,"),
    ("case", r"^(\s*)Some\(.*\)$", r"\1None"),
    ("case", r"=> Ok\(Some\(.*\)\),$", "=> Ok(None),"),
    ("swap", r"\b(\w+)\((\w+), (\w+)\)", r"\1(\3, \2)"),
    ("swap", r"\(&?(\w+), &?(\w+), ", r"(\2, \1, "),
    ("write", r"^(\s*)[\w.]+(\[.*\])? [+|&-]?= .*;$", r"\1;"),
    ("write", r"^(\s*)[\w.]+\.(push|extend_from_slice|copy_from_slice)\(.*;$", r"\1;"),
]

# By what a function returns, what a body may begin with.
EARLY = [
    (r"-> Option<", "return None;"),
    (r"-> bool", "return true;"),
    (r"-> bool", "return false;"),
    (r"-> (u8|u32|u64|usize)\b", "return 0;"),
    (r"-> Result<Reading, SetRefusal>", "return Ok(Reading::Open);"),
    (r"-> Result<Option<", "return Ok(None);"),
    (r"-> Result<\(\)", "return Ok(());"),
]

WORDS = set(
    "let if else match for in return self mut heap break as move loop while continue true "
    "false".split()
)
NAME = r"[a-z_]\w*\b(?![(!:])"


def put(line, found, new):
    """The line with the new text in the place of what was found."""
    return line[: found.start()] + new + line[found.end() :]


def edits(lines, head, body, whole):
    """The edits of a body: kind, old line, new line."""
    code = [lines[at] for at in body if not re.match(CODE, lines[at])]
    words = "\n".join(code)
    names = set(re.findall(r"(?<![.\w:])" + NAME, words)) - WORDS
    fields = set(re.findall(r"\bself\.(\w+)\b(?!\()", words))
    signature = " ".join(lines[head.start : body.start])
    signature = signature[: signature.find(" ensures ")] if " ensures " in signature else signature
    for old in code:
        if whole.count(old.strip()) != 1:
            continue
        for kind, pattern, new in SWAPS:
            for found in re.finditer(pattern, old):
                text = found.expand(new) if isinstance(new, str) else new(found)
                yield kind, old, put(old, found, text)
        for found in re.finditer(r"(?<=\bself\.)\w+\b(?!\()", old):
            for name in sorted(fields - {found.group()}):
                yield "operand", old, put(old, found, name)
        for found in re.finditer(r"(?<![.\w:\"'])" + NAME, old):
            bound = rf"let (mut )?\(?[\w, ]*\b{found.group()}\b.*=.*"
            if found.group() not in names or re.search(bound, old[: found.end() + 3]):
                continue
            for name in sorted(names - {found.group()}):
                yield "operand", old, put(old, found, name)
    for old in code[:1]:
        for pattern, new in EARLY:
            if whole.count(old.strip()) == 1 and re.search(pattern, signature):
                yield "early", old, f"{new} {old.strip()}"


def chosen(found):
    """Some edits, of as many kinds and lines as there are."""
    out, seen = [], set()

    def often(edit):
        """How often the kind and the line were taken. An operand is the last choice, since most
        do not fit in their type."""
        kind, line, _ = edit
        kinds = sum(kind == one[0] for one in out) + 2 * (kind == "operand")
        return kinds, sum(line == one[1] for one in out)

    rest = [it for number, it in enumerate(found) if it not in found[:number]]
    while rest and len(out) < EACH:
        best = min(rest, key=often)
        rest.remove(best)
        if best[2] not in seen:
            seen.add(best[2])
            out.append(best)
    return out


def make(name):
    blocks = []
    crate = TOP / "crates" / name
    for file in sorted((crate / "src").rglob("*.rt")):
        whole = file.read_text()
        lines = whole.split("\n")
        for function, head, body in functions(lines):
            some = chosen(list(edits(lines, head, body, whole)))
            for count, (kind, old, new) in enumerate(some, 1):
                blocks.append(
                    f"plant: {function}_{kind}_{count}\nfile: {file.relative_to(crate)}\n"
                    f"old: {old.strip()}\nnew: {new.strip()}\n"
                )
    MADE.mkdir(parents=True, exist_ok=True)
    (MADE / f"{name}.txt").write_text("\n".join(blocks))
    print(f"{name}: {len(blocks)} edits")


def listed(name):
    """The edits of a crate's lists: name, text, and the whole block."""
    lists = [folder / f"{name}.txt" for folder in (LISTS, MADE)]
    texts = [one.read_text().strip("\n") for one in lists if one.exists()]
    for block in (block for text in texts for block in text.split("\n\n") if block):
        plant, *lines = block.split("\n")
        text = "\n".join(line for line in lines if not line.startswith("known: "))
        yield plant.removeprefix("plant: "), text, block


def has_contract(lines, head):
    """Whether a function has a clause of its own, or stands in an impl with ghost members."""
    if any(re.search(r"\bensures\b", lines[at]) for at in head):
        return True
    if not lines[head.start].startswith(" "):
        return False
    begins = ("impl", "pub trait", "trait")
    above = next(at for at in range(head.start, -1, -1) if lines[at].startswith(begins))
    return any(re.match(r"\s+ghost \w+ = ", line) for line in lines[above : head.start])


def bare(name):
    """The functions with a contract, and a body, that no edit written by hand changes."""
    source = TOP / "crates" / name
    texts = [LISTS / f"{name}.txt", *(source / "must-fail").glob("*.edit")]
    written = "\n".join(one.read_text() for one in texts if one.exists())
    edited = re.findall(r"^file: (.*)\nold: (.*)$", written, re.M)
    for file in sorted((source / "src").rglob("*.rt")):
        lines = file.read_text().split("\n")
        olds = [old.strip() for path, old in edited if source / path == file]
        for function, head, body in functions(lines):
            whole = "\n".join(lines[head.start : body.stop])
            if has_contract(lines, head) and not any(old in whole for old in olds):
                yield f"{name}/{file.relative_to(source)}:{head.start + 1}: {function}"


# How a line of `rt must-fail` begins, and what it says of the edit.
KINDS = [
    ("refused, as it must be (only because", "bad"),
    ("refused", "refused"),
    ("BAD", "bad"),
    ("NOT REFUSED", "survivor"),
]


def tried(top, name, plants):
    """What comes of each edit, in a copy of the repository: its kind, and rt's first line."""
    folder = top / "crates" / name / "must-fail"
    shutil.rmtree(folder, ignore_errors=True)
    folder.mkdir()
    for count, (_, text, _) in enumerate(plants):
        (folder / f"{count:03}.edit").write_text(text + "\n")
    ran = subprocess.run(
        ["rt", "must-fail", name],
        cwd=top,
        stdout=subprocess.PIPE,
        stderr=subprocess.STDOUT,
        text=True,
        errors="replace",
        check=False,
    )
    said = ran.stdout.split("\n")
    for count, (plant, _, _) in enumerate(plants):
        edit = f"{name}/{count:03}.edit: "
        told = next((line.split(edit)[1] for line in said if edit in line), "NOT TRIED")
        yield plant, next((to for word, to in KINDS if told.startswith(word)), "not tried"), told
    shutil.rmtree(folder)


def told_by_run(top, name, text):
    """Whether a program with an edit prints another output."""
    crate = top / "crates" / name
    if not (crate / "stdout").exists():
        return False
    pairs = re.findall(r"^old: (.*)\nnew: (.*)$", text, re.M)
    file = crate / re.match(r"file: (.*)", text).group(1)
    was = file.read_text()
    try:
        for old, new in pairs:
            file.write_text(file.read_text().replace(old, new, 1))
        words = (crate / "args").read_text().split("\n") if (crate / "args").exists() else []
        subprocess.run(
            ["rt", "run"], cwd=crate, stdin=subprocess.DEVNULL, capture_output=True, check=False
        )
        source = (crate / "stdin").read_bytes() if (crate / "stdin").exists() else b""
        data = crate / "data" if (crate / "data").exists() else crate
        command = [crate / "out" / name, *filter(None, words)]
        ran = subprocess.run(command, cwd=data, input=source, capture_output=True, check=False)
        return ran.stdout != (crate / "stdout").read_bytes()
    finally:
        file.write_text(was)


def run(names):
    alive = 0
    with tempfile.TemporaryDirectory(prefix="planted-") as room:
        top = pathlib.Path(room) / "top"
        shutil.copytree(TOP, top, ignore=shutil.ignore_patterns(".git", "target"), symlinks=True)
        for name in names:
            plants = list(listed(name))
            found = list(tried(top, name, plants))
            log = TOP / "target" / f"planted-{name}.log"
            log.parent.mkdir(exist_ok=True)
            log.write_text("".join(f"{plant}: {told}\n" for plant, _, told in found))
            kinds = []
            for (plant, text, block), (_, kind, told) in zip(plants, found):
                if kind == "survivor" and re.search(r"^known: .*", block, re.M):
                    kind = "known"
                elif kind == "survivor" and told_by_run(top, name, text):
                    kind = "told by its run"
                elif kind == "survivor":
                    print(f"SURVIVOR {name}/{plant}\n{text}")
                elif kind in ("bad", "not tried"):
                    print(f"{kind}: {name}/{plant}: {told[:120]}")
                kinds.append(kind)
            alive += kinds.count("survivor")
            counts = ", ".join(f"{kinds.count(kind)} {kind}" for kind in sorted(set(kinds)))
            print(f"{name}: {len(kinds)} edits, {counts}", flush=True)
    return alive


if __name__ == "__main__":
    command, *given = sys.argv[1:] or [""]
    if command == "make" and given:
        for each in given:
            make(each)
    elif command == "bare":
        for each in given or sorted(it.name for it in (TOP / "crates").iterdir()):
            print("".join(f"{line}\n" for line in bare(each)), end="")
    elif command == "run":
        lists = sorted({it.stem for folder in (LISTS, MADE) for it in folder.glob("*.txt")})
        sys.exit(1 if run(given or lists) else 0)
    else:
        sys.exit(__doc__)
