#!/usr/bin/env python3
"""Lists the places in crates/*/src that may be written in a newer form, point by point, and counts them.

    python3 tools/places.py          the counts
    python3 tools/places.py --list   each place too
    python3 tools/places.py --list 3 the places of one point
"""

import re
import sys
from collections import defaultdict
from pathlib import Path

SOURCES = sorted(Path("crates").glob("*/src/**/*.rt"))
KEYWORDS = set(
    "fn let mut if else match while loop for in return break continue self Self Some None Ok Err true false as "
    "ref move pub impl struct enum".split()
)


class Function:
    def __init__(self, path, line, name, head, body):
        self.path, self.line, self.name, self.head, self.body = path, line, name, head, body

    def place(self):
        return f"{self.path}:{self.line} {self.name}"


def without_comments(text):
    return re.sub(r"//[^\n]*", "", text)


def end_of(text, start, opening, closing):
    """The index after the bracket that closes the one at `start`."""
    depth = 0
    for at in range(start, len(text)):
        if text[at] == opening:
            depth += 1
        elif text[at] == closing:
            depth -= 1
            if depth == 0:
                return at + 1
    return len(text)


def functions(path):
    """The functions of a file: what stands before the body, and the body."""
    text = without_comments(path.read_text())
    found = []
    for head in re.finditer(r"^[ \t]*(?:pub(?:\([a-z]+\))? )?fn (\w+)", text, re.M):
        at = head.end()
        while at < len(text) and text[at] not in "{;":
            at += 1
        # A clause has braces of its own: `ensures name { .. }`.
        while at < len(text) and text[at] == "{" and re.search(r"(requires|ensures)( \w+)? $", text[head.end() : at]):
            at = end_of(text, at, "{", "}")
            while at < len(text) and text[at] not in "{;":
                at += 1
        if at >= len(text) or text[at] == ";":
            body, stop = "", at
        else:
            stop = end_of(text, at, "{", "}")
            body = text[at:stop]
        found.append(Function(path, text.count("\n", 0, head.start(1)) + 1, head.group(1), text[head.start() : at], body))
    return found


def lines_with(pattern, paths=SOURCES):
    """The lines of sources that a pattern fits."""
    found = []
    for path in paths:
        for number, line in enumerate(path.read_text().split("\n"), 1):
            if not line.strip().startswith("//") and re.search(pattern, line):
                found.append(f"{path}:{number} {line.strip()}")
    return found


def bodies_with(pattern, all_functions):
    found = []
    for function in all_functions:
        for _ in re.finditer(pattern, function.body):
            found.append(function.place())
    return found


def shape(body):
    """A body with each name, number and text replaced by a sign that says only which kind it is."""
    tokens = re.findall(r"b?\"[^\"]*\"|'[^']'|\w+|[^\s\w]", body)
    return " ".join(token if token in KEYWORDS or not re.match(r"b?\"|'|\w", token) else "_" for token in tokens)


def twins(all_functions):
    """Groups of functions of one crate whose bodies have one shape."""
    groups = defaultdict(list)
    for function in all_functions:
        if len(shape(function.body).split()) >= 12:
            groups[(function.path.parts[1], shape(function.body))].append(function.place())
    return ["  =  ".join(group) for group in groups.values() if len(group) > 1]


def repeated_facts(all_functions):
    """Clauses, and premises of clauses, that stand word for word in the contracts of three or more functions of a crate."""
    found = defaultdict(list)
    for function in all_functions:
        facts = set()
        for clause in re.finditer(r"(?:requires|ensures)(?: \w+)? \{", function.head):
            text = function.head[clause.end() : end_of(function.head, clause.end() - 1, "{", "}") - 1].strip()
            premise = re.match(r"\(\w+ : [^()]*\) → [^→]* →", text)
            facts.add(premise.group(0) if premise else text)
        for fact in facts:
            found[(function.path.parts[1], re.sub(r"\.(now|old|new)\b", ".now", fact))].append(function.name)
    return [f"{crate}: {{ {fact} }} in {', '.join(names)}" for (crate, fact), names in found.items() if len(names) >= 3]


def travelling(all_functions):
    """Pairs of parameters that three or more functions of a crate take together."""
    found = defaultdict(list)
    for function in all_functions:
        start = function.head.find("(", function.head.find(function.name))
        if start < 0:
            continue
        inside = function.head[start + 1 : end_of(function.head, start, "(", ")") - 1]
        names = sorted(set(re.findall(r"(?:^|,)\s*(?:mut )?(\w+):", inside)))
        for first in range(len(names)):
            for second in range(first + 1, len(names)):
                found[(function.path.parts[1], names[first], names[second])].append(function.name)
    return [f"{crate}: {a}, {b} in {', '.join(names)}" for (crate, a, b), names in found.items() if len(names) >= 3]


def points():
    all_functions = [function for path in SOURCES for function in functions(path)]
    counting = [f.place() for f in all_functions if re.search(r"\b(while|loop)\b", f.body) and re.search(r"[+-]= 1;", f.body)]
    return {
        1: lines_with(r"^\s+(pub )?\w+: bool,$")
        + lines_with(r"^\s+(Refused\(\w+\)|Bad|BadLine|Nothing|NoMemory),$")
        + [f.place() for f in all_functions if len(re.findall(r"=> -?\d+,", f.body)) >= 3]
        + lines_with(r"\bconst (BLANK|TOKEN_INVALID_TYPE|NOTHING_BEFORE|UNSTAMPED)\b")
        + lines_with(r"^\s+before: Token,$|^    encoding: Encoding,$"),
        2: twins(all_functions),
        3: counting,
        4: lines_with(r"\b(same|is)\((?!\))(?!self\))(?!&self)")
        + lines_with(r"^impl.* (Clone|Copy|PartialEq|Eq|PartialOrd|Ord|Debug|Default) for ")
        + bodies_with(r"None => None|Err\(\w+\) => Err\(\w+\)|Ok\(\(\)\) => true|else \{\s*return None;", all_functions)
        + lines_with(r"let \w+ = refusal\.(number|word)\(\);"),
        5: repeated_facts(all_functions) + travelling(all_functions),
        6: lines_with(r"^\s+(at|len|start|end|out): usize,$"),
        7: [
            f.place()
            for f in all_functions
            if re.search(r"\(.*\b(class|encoding|numbering|kind): (Class|Encoding|Numbering|Kind)", f.head.split("requires")[0].split("ensures")[0])
        ]
        + lines_with(r"\[fn\(|: fn\("),
    }


def main():
    listed = "--list" in sys.argv
    wanted = [int(word) for word in sys.argv[1:] if word.isdigit()]
    for point, places in points().items():
        if wanted and point not in wanted:
            continue
        print(f"point {point}: {len(places)}")
        if listed:
            for place in places:
                print(f"    {place}")


main()
