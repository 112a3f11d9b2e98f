#!/usr/bin/env python3
"""Places that docs/DESIGN-PASS.md counts, in src/ of every crate, of proofs in proofs/: tools/design/places.py [POINT..]

Run at the top of the checkout, of today's tree or of an older commit's. It prints one line a place, FILE: WHAT, and a count for each point.
It goes by the text: what it finds is looked at, and what it cannot see is said in the page."""
import collections
import pathlib
import re
import sys

ROOT = pathlib.Path("crates")
FUNCTION = re.compile(r'^( *)(?:pub )?(?:const )?(?:unsafe )?(?:extern "C" )?fn (\w+)', re.M)
REFUSAL = re.compile(
    r"\b(BAD_[A-Z]+|BAD_INK_VERSION|TOO_FEW_[A-Z]+|LEFT_OVER|UNREACHED|NOT_FOUND|DRAFT_[A-Z]+|NO_ROOM|NO_TARGET|NO_CONTAINER)\b|Refusal::\w+ as u32"
)
DRAFT = ("nodes", "children", "named", "definitions", "items", "payload", "strings")


def sources():
    for path in sorted(ROOT.glob("*/src/**/*.rt")):
        yield str(path.relative_to(ROOT)), path.read_text()


def functions(text):
    """Name, what stands before the body, and the body."""
    for match in FUNCTION.finditer(text):
        end = re.compile(rf"^{match.group(1)}\}}\n", re.M).search(text, match.end())
        whole = text[match.start() : end.end() if end else len(text)]
        brace = re.search(r"^ *\{\n", whole, re.M)
        cut = brace.start() if brace else whole.find("{")
        yield match.group(2), whole[:cut], whole[cut:]


def enums():
    """Point 1: enums of two cases, of which one holds nothing or a number of a refusal."""
    for path, text in sources():
        for name, body in re.findall(r"^(?:pub )?enum (\w+) \{\n(.*?)^\}", text, re.M | re.S):
            cases = re.findall(r"^    (\w+)(\([^)]*\)|)", body, re.M)
            bare = [case for case, held in cases if not held]
            refused = [case for case, held in cases if case == "Refused" and held == "(u32)"]
            if len(cases) == 2 and len(bare) == 1 or refused:
                yield f"{path}: enum {name}"


def refusals():
    """Point 1: functions that answer a refusal's number, 0 for none."""
    for path, text in sources():
        for name, head, body in functions(text):
            if re.search(r"-> u32\b", head) and 'extern "C"' not in head and (REFUSAL.search(body) or name.endswith("_rule")):
                yield f"{path}: fn {name}"


def kinds():
    """Point 1: constants that number kinds or refusals, three or more in one file that follow one another."""
    for path, text in sources():
        found = [(name, int(number)) for name, number in re.findall(r"^pub const (\w+): u32 = (\d{1,2});", text, re.M)]
        if len(found) > 2 and found[-1][1] < 30:
            yield from (f"{path}: {name} = {number}" for name, number in found)


def handed_on():
    """Point 1: a refusal that is tested and handed on by hand."""
    for path, text in sources():
        for name in re.findall(r"if (\w+) != 0 \{\n *return (?:\w+::Refused\()?\1\)?;", text):
            yield f"{path}: {name}"


def matched():
    """Point 1: a `match` that hands on nothing or a refusal, or asks whether there is something, where a method or `?` does."""
    nothing = r"(?:\w+::)?(?:NotFound|Unknown|Nowhere|Absent|None)"
    for path, text in sources():
        for name, _, body in functions(text):
            for arm in re.findall(rf"\b{nothing} => {nothing}\b|\b(?:\w+::)?Refused\((\w+)\) => (?:\w+::)?Refused\(\1\)|\((?:_|\w+)\) => true,\n *{nothing} => false", body):
                yield f"{path}: fn {name}: {arm or 'match'}"


def twins():
    """Point 2: functions whose bodies differ in names and numbers alone, of at least four lines."""
    found = collections.defaultdict(list)
    for path, text in sources():
        for name, head, body in functions(text):
            lines = [line for line in body.splitlines() if line.strip() not in ("{", "}", "")]
            if len(lines) < 4 or 'extern "C"' in head:
                continue
            shape = re.sub(r"\s+", " ", re.sub(r"\b\d+\b", "0", re.sub(r"(?:\b\w+::)*\b[A-Za-z_]\w*", "n", body)))
            found[shape].append(f"{path}: fn {name}")
    for places in found.values():
        if len(places) > 1:
            yield " = ".join(places)


def loops():
    """Point 3: `while` loops."""
    for path, text in sources():
        for name, _, body in functions(text):
            for test in re.findall(r"\bwhile ([^{]*) \{", re.sub(r"//[^\n]*", "", body)):
                yield f"{path}: fn {name}: while {test}"


def by_hand():
    """Point 4: equality, copies, conversions and order by hand."""
    for path, text in sources():
        for name, head, body in functions(text):
            plain = re.sub(r"//[^\n]*", "", body)
            if re.search(r"(\w+)\[i\] = (\w+)\[i\];|& ?0xff|/ 256 % 256|256 \* \(", plain):
                yield f"{path}: fn {name}: copied or joined byte by byte"
            if len(re.findall(r"^ *\w+::\w+ => \d+,$", plain, re.M)) > 2:
                yield f"{path}: fn {name}: numbers of cases by a match"


def together():
    """Point 5: functions that take four or more of a draft's slices."""
    for path, text in sources():
        for name, head, _ in functions(text):
            taken = [part for part in DRAFT if re.search(rf"\b{part}: &(?:mut )?\[u(?:32|8)\]", head)]
            if len(taken) >= 4 and 'extern "C"' not in head:
                yield f"{path}: fn {name}: {', '.join(taken)}"


def beside_view():
    """Point 5: functions that take an image's bytes and its view."""
    for path, text in sources():
        for name, head, _ in functions(text):
            if re.search(r"\bbytes: &\[u8\],\s*view: (?:ImageView|SleeperView)\b", head):
                yield f"{path}: fn {name}"


def facts():
    """Point 5: clauses that three or more functions require in the same words."""
    found = collections.defaultdict(list)
    for path, text in sources():
        for name, head, _ in functions(text):
            for clause in re.findall(r"requires \w* ?\{(.*?)\}\s*(?=requires|ensures|$)", head, re.S):
                found[" ".join(clause.split())].append(f"{path}: fn {name}")
    for clause, places in found.items():
        if len(places) > 2:
            yield f"{clause}: {len(places)}, " + ", ".join(places)


def proofs():
    """Point 8: files of answers, of invariants and of laws in proofs/, with their lines."""
    for path in sorted(ROOT.glob("*/proofs/**/*.antt")):
        yield f"{path.relative_to(ROOT)}: {path.read_text().count(chr(10))}"


POINTS = {
    "1-enums": enums,
    "1-numbers": refusals,
    "1-kinds": kinds,
    "1-handed-on": handed_on,
    "1-matched": matched,
    "2-twins": twins,
    "3-loops": loops,
    "4-by-hand": by_hand,
    "5-together": together,
    "5-view": beside_view,
    "5-facts": facts,
    "8-proofs": proofs,
}


def main():
    asked = sys.argv[1:] or list(POINTS)
    for point in asked:
        places = list(POINTS[point]())
        if sys.argv[1:]:
            print("\n".join(places))
        print(f"{point}: {len(places)}")


main()
