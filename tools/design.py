#!/usr/bin/env python3
"""Counts the places in src/ that docs/DESIGN-PASS.md speaks of, by point, in the checkout or in a commit.

  tools/design.py [COMMIT]            the counts, a row for each point and crate kind
  tools/design.py --list N [COMMIT]   the places of point N, as FILE:LINE: TEXT

A place is a line (points 1, 3, 4, 6), a group of functions whose text is the same but for names and numbers (2), a clause that stands in three or more
contracts (5), a function that asks three or more times in a row which value one thing has (7). What the patterns cannot see, the page lists by hand.
"""
import re
import subprocess
import sys
from collections import defaultdict

CODES = (r"codes::(?:SUCCESS|FAILED|BAD_CONTROL_CODE|INVALID_PARAMETER|WRITE_ATTEMPTED|PHY_INFO_CHANGED|PHY_INFO_NOT_CHANGEABLE|LINK_RATE_OUT_OF_RANGE"
         r"|PHY_DOES_NOT_EXIST|PHY_DOES_NOT_MATCH_PORT|SELECT_PHY_OR_PORT|PORT_DOES_NOT_EXIST|CONNECTION_FAILED|NO_SATA_DEVICE|NO_SATA_SIGNATURE"
         r"|NO_SCSI_ADDRESS|NO_DEVICE_ADDRESS|SHORT_BUFFER|BAD_TEXT|BAD_FILE_LENGTH|BLOCK_CHECK|BAD_FIELD|SHARED_ROW|BAD_MEDIUM_LENGTH|BAD_STATE"
         r"|GET_[A-Z_]+|SET_PHY_INFO|FIRMWARE_DOWNLOAD|STP_PASSTHRU)\b")
OWN = r"pub (?:enum (?:Setting|Taken)|struct (?:TextLevel|Selection|Answer|Step|Prefix))\b"
NONE = r"\breturn (?:a|p|i|0);|== codes::SUCCESS|\bcall == 0\b|\bnumber == 0\b|\bsize == 0\b"
LINES = {
    1: [CODES, OWN, NONE],
    3: [r"\bwhile\b"],
    4: [r"\bas (?:u8|u16|u32|u64|usize)\b", r"\bwire::(?:same|same_at|same4|same16|copy_part|copy_at|clear|zero_at)\(", r"#\[derive\(Clone, Copy\)\]", r"\bfn say_", r"\bsay_[a-z_]+\("],
    6: [r"\[0(?:u8|u32|u64)?; ", r"\b[a-z]+\[[^\]]*\+ [^\]]*\]"],
}


def sources(commit):
    if commit:
        names = subprocess.run(["git", "ls-tree", "-r", "--name-only", commit, "crates"], capture_output=True, text=True, check=True).stdout.split("\n")
    else:
        names = subprocess.run(["git", "ls-files", "crates"], capture_output=True, text=True, check=True).stdout.split("\n")
    for name in sorted(names):
        if re.fullmatch(r"crates/[^/]+/src/.*\.rt", name):
            if commit:
                yield name, subprocess.run(["git", "show", f"{commit}:{name}"], capture_output=True, text=True, check=True).stdout
            else:
                yield name, open(name, encoding="utf-8").read()


def is_code(line):
    return not line.lstrip().startswith(("//", "ghost", "requires", "ensures", "#![", "use ", "pub use "))


def functions(text):
    """(line, name, clauses, body) of each function of a file."""
    for m in re.finditer(r"^( *)(?:pub )?(?:extern \"C\" )?fn (\w+)", text, re.M):
        indent = m.group(1)
        end = re.search(rf"^{indent}\}}$", text[m.start():], re.M)
        if not end:
            continue
        whole = text[m.start():m.start() + end.start()]
        opening = re.search(rf"^{indent}\{{$", whole, re.M) or re.search(r"\{$", whole, re.M)
        if not opening:
            continue
        head, body = whole[:opening.start()], whole[opening.end():]
        clauses = re.findall(r"requires (?:\w+ )?\{ (.*) \}", head)
        yield text.count("\n", 0, m.start()) + 1, m.group(2), clauses, body


def shape(body):
    body = re.sub(r"//.*", "", body)
    body = re.sub(r"\b(?!if\b|else\b|while\b|for\b|match\b|return\b|let\b|mut\b|true\b|false\b|in\b)[A-Za-z_]\w*\b", "x", body)
    body = re.sub(r"(?:x::)+x", "x", body)
    body = re.sub(r"\b(?:0x)?[0-9a-f]+\b", "0", body)
    return re.sub(r"\s+", " ", body).strip()


def places(commit):
    found = defaultdict(list)
    shapes, clauses = defaultdict(list), defaultdict(list)
    for name, text in sources(commit):
        for number, line in enumerate(text.split("\n"), 1):
            for point, patterns in LINES.items():
                if is_code(line) and any(re.search(p, line) for p in patterns):
                    found[point].append((name, number, line.strip()))
        for number, fn, asked, body in functions(text):
            form = shape(body)
            if len(form) >= 40:
                shapes[form].append((name, number, fn))
            for clause in asked:
                for part in clause.split(" × "):
                    part = re.sub(r"\.(?:now|old)\b", "", part.strip("() "))
                    clauses[part].append((name, number, fn))
            asks = re.findall(r"^\s*if \(?([\w.]+)\)? == [^{]*\{\s*\n\s*return|^\s*if (?:wire::)?(\w+\(\w+), ", body, re.M)
            for subject in {a or b for a, b in asks}:
                if sum((a or b) == subject for a, b in asks) >= 3:
                    found[7].append((name, number, f"{fn}: asks {subject}"))
    for form, group in shapes.items():
        if len(group) >= 2:
            found[2].append((group[0][0], group[0][1], ", ".join(f"{n.split('/')[1]}::{fn}" for n, _, fn in group)))
    for clause, group in clauses.items():
        if len({(n, fn) for n, _, fn in group}) >= 3:
            found[5].append((group[0][0], group[0][1], f"{len(group)} times: {clause}"))
    return found


def main(words):
    point = None
    if words[:1] == ["--list"]:
        point, words = int(words[1]), words[2:]
    found = places(words[0] if words else None)
    if point:
        for name, number, text in found[point]:
            print(f"{name}:{number}: {text}")
        return
    for point in sorted(found):
        crates = defaultdict(int)
        for name, _, _ in found[point]:
            crates[name.split("/")[1]] += 1
        print(f"{point}: {len(found[point])} ({', '.join(f'{c} {n}' for c, n in sorted(crates.items()))})")


main(sys.argv[1:])
