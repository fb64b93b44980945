#!/usr/bin/env python3
# tools/places.py [-l] [COMMIT]: counts the places of older forms in the sources of the work tree, or of a commit; -l lists them.
import re, subprocess, sys

LISTING = "-l" in sys.argv
COMMIT = next((a for a in sys.argv[1:] if a != "-l"), None)


def run(*args):
    return subprocess.run(args, capture_output=True, text=True, check=True).stdout


TOP = run("git", "rev-parse", "--show-toplevel").strip()


def paths(pattern):
    names = run("git", "-C", TOP, "ls-tree", "-r", "--name-only", COMMIT) if COMMIT else \
        run("git", "-C", TOP, "ls-files", "-co", "--exclude-standard")
    return sorted(n for n in names.splitlines() if re.fullmatch(pattern, n))


def read(path):
    try:
        return run("git", "-C", TOP, "show", f"{COMMIT}:{path}") if COMMIT else open(f"{TOP}/{path}").read()
    except (OSError, subprocess.CalledProcessError):
        return ""


SOURCES = {p: read(p) for p in paths(r"crates/[^/]+/src/.*\.rt")}
PROOFS = {p: read(p) for p in paths(r"crates/[^/]+/(proofs|specs)/.*\.antt")}


def code(text):
    """The text with comments blanked, lines kept."""
    return re.sub(r"(?m)(^|\s)//.*$", r"\1", text)


def lines(pattern, where=lambda path: True):
    """Places whose line of code meets the pattern."""
    found = []
    for path, text in SOURCES.items():
        if where(path):
            for n, line in enumerate(code(text).splitlines(), 1):
                if re.search(pattern, line):
                    found.append(f"{path}:{n}: {line.strip()}")
    return found


def blocks(head, body):
    """Items whose head meets `head` and whose text up to the next blank line meets `body`."""
    found = []
    for path, text in SOURCES.items():
        text = code(text)
        for m in re.finditer(head, text):
            end = text.find("\n}\n", m.start())
            if re.search(body, text[m.start():end if end > 0 else None]):
                found.append(f"{path}:{text.count(chr(10), 0, m.start()) + 1}: {m.group(0).strip().splitlines()[-1]}")
    return found


def signatures(test):
    """Functions whose parameters and result meet the test."""
    found = []
    for path, text in SOURCES.items():
        text = code(text)
        for m in re.finditer(r"(?s)\bfn (\w+)(?:<[^>]*>)?\((.*?)(?=\n\s+(?:requires|ensures)|\s*\{)", text):
            if test(m.group(1), " ".join(m.group(2).split())):
                found.append(f"{path}:{text.count(chr(10), 0, m.start()) + 1}: {m.group(1)}")
    return found


def named(*names):
    """Of these `crate::function`s, those that are there."""
    found = []
    for name in names:
        crate, item = name.split("::")
        if any(p.startswith(f"crates/{crate}/") and re.search(rf"\b(fn|struct|enum) {item}\b", code(t)) for p, t in SOURCES.items()):
            found.append(name)
    return found


def twins(*groups):
    """Of these groups, those of which two members are there."""
    return [" + ".join(there) for there in (named(*g) for g in groups) if len(there) > 1]


def uncited():
    """Lemmas with premises whose name stands nowhere but in their own clauses."""
    words = {}
    for text in PROOFS.values():
        for w in re.findall(r"[^\s(){}\[\],;.λ]+", re.sub(r"(?m)--.*$", "", text)):
            words[w] = words.get(w, 0) + 1
    found = []
    for path, text in PROOFS.items():
        text = re.sub(r"(?m)--.*$", "", text)
        if "/proofs/" in path and path.count("/") == 3:
            for m in re.finditer(r"(?m)^( *)(?:pub )?([^\s(){}:]+) : (.*(?:\n\1 +.*)*)", text):
                own = len(re.findall(rf"(?m)^ *(?:pub )?{re.escape(m.group(2))}(?=\s|$)", text))
                if "→" in m.group(3) and m.group(2) not in ("invariant", "record") and words[m.group(2)] <= own:
                    found.append(f"{path}: {m.group(2)}")
    return found


repeated = {}
for text in SOURCES.values():
    for clause in re.findall(r"(?m)^\s+requires(?: \w+)? \{ (.*) \}$", text):
        repeated[clause] = repeated.get(clause, 0) + 1

KINDS = [
    ("1a", "variants that hold a refusal's number", lines(r"Refused\(usize\)")),
    ("1b", "functions that answer a refusal as a number", signatures(lambda n, s: re.search(r"refusal|unfit", n) and s.endswith("-> usize"))),
    ("1c", "refusals written as numbers", lines(r"return (1[0-6]|2[0-2]);|Refused\((1\d|2\d)\)|^\s+1[01]$")),
    ("1d", "tests of such a number", lines(r"\b(number|refused) (!=|==) 0")),
    ("1e", "flags in structs, with values beside", blocks(r"(?m)^(?:#\[.*\]\n)*(?:pub )?struct \w+", r": bool,")),
    ("1f", "structs of a value and an answer", named("plans::Stepped", "plans::Started")),
    ("1g", "numbers that stand for none", named("elimination::find_row", "elimination::Reduced", "walks::Walk") and [
        n for n, p in (("elimination::find_row: m", r"fn find_row\([^)]*\) -> usize"), ("elimination::Reduced.free: k", r"pub free: usize"),
                       ("walks::Walk.row: R", r"pub row: usize,\s+pub filled"), ("basis::Answer.dependency: 0", r"pub dependency: u64"))
        if any(re.search(p, t) for t in SOURCES.values())]),
    ("1h", "a field by its number", lines(r"\b(q|field): usize")),
    ("1i", "enums without derives of their own", blocks(r"(?m)^#\[derive\(Drop\)\]\n(?:pub )?enum \w+", r"")),
    ("2a", "twins", twins(
        ("steps::symbols_of", "steps::words_of"), ("steps::put_symbols", "steps::put_words"), ("gathering::scatter", "gathering::scatter_word"),
        ("codewords::add_plain", "codewords::add_times"), ("field::dot_bits", "field::dot_table"),
        ("numbers::of_answer", "numbers::of_step", "numbers::of_outcome", "numbers::of_verdict"),
        ("basis::gather_column", "gathering::gather_need", "levels::lossy_word"), ("linear::fill_marked", "linear::fill_binary"),
        ("encoding::place_row", "encoding::take_row"), ("refusals::lengths_fit", "encoding::lengths_fit"),
        ("refusals::lent_refusal", "refusals::bench_refusal"), ("field::products", "field::logarithms"), ("gathering::copy", "words::put"),
        ("linear_cases::filling", "linear_cases::filling_wide"))),
    ("2b", "the same lines: both tables put into a room and lent", lines(r"tables::put_checks\(")),
    ("3a", "`while` and `loop`", lines(r"\bwhile |\bloop \{")),
    ("3b", "`for` over numbers", lines(r"\bfor \w+ in .*\.\.")),
    ("4a", "equality, copying and conversion in functions of their own", named(
        "reading::same", "rounds::is_clash", "numbers::is_refusal", "numbers::of_answer", "numbers::of_step", "numbers::of_outcome", "numbers::of_verdict",
        "gathering::copy", "systems::wipe", "steps::symbols_of", "steps::words_of", "steps::put_symbols", "steps::put_words", "shelf::put_room")),
    ("4b", "printing in functions of their own", named("texts::put_number", "texts::put_item", "texts::digit", "texts::put_symbol", "linear_cases::digit", "linear_cases::flag")),
    ("5a", "functions that are lent a field's table", signatures(lambda n, s: "table: &[u8]" in s)),
    ("5b", "functions that take three or more parts of a bench", signatures(
        lambda n, s: sum(bool(re.search(rf"\b{w}: ", s)) for w in ("plan", "level", "symbols", "marks", "sums")) > 2)),
    ("5c", "functions that take a matrix and its sizes", signatures(lambda n, s: re.search(r"\ba: &(mut )?\[u8\].*: usize", s))),
    ("5d", "functions that take a text and the place in it", signatures(lambda n, s: "at: usize" in s and re.search(r"(out|file): &mut", s))),
    ("5e", "clauses that three or more functions ask", [f"{n} times: {c}" for c, n in sorted(repeated.items()) if n > 2]),
    ("6a", "functions that take a buffer and how much of it counts", signatures(
        lambda n, s: re.search(r"places: &\[u8\], k: usize|pivots: &\[\w+\], r: usize|pivots: &\[u8; COLUMNS\], r: usize|checks: &\[u8\], m: usize", s))),
    ("6b", "tables given back with zeros behind them", signatures(lambda n, s: n in ("weights", "check_places") and "-> [" in s)),
    ("7", "functions and closures in tables, `dyn`", lines(r"\bdyn |: fn\(|\[fn\(")),
    ("8", "lemmas that nothing cites", uncited()),
]

for kind, what, found in KINDS:
    print(f"{kind:3} {len(found):4}  {what}")
    if LISTING:
        for place in found:
            print(f"          {place}")
