"""Counts, over crates/*/src, the places of each form that docs/DESIGN-PASS.md speaks of: python3 tools/forms.py [-v]."""

import difflib
import glob
import re
import sys
from collections import defaultdict

SIGNATURE = re.compile(r"\bfn\s+(\w+)")
CALLS = {"figures", "planner"}  # programs: their calls of the library are what they show


class Function:
    """One function: where it stands, its parameters, the facts it asks for, and its body's tokens."""

    def __init__(self, path, name, parameters, facts, body):
        self.crate = path.split("/")[1]
        self.name = f"{self.crate}::{name}"
        self.parameters = parameters
        self.facts = facts
        self.tokens = re.findall(r"\w+|[^\w\s]", body)


def matching(text, at):
    """The place behind the bracket that closes the one at `at`."""
    pairs = {"(": ")", "{": "}", "[": "]"}
    closers = [pairs[text[at]]]
    while closers:
        at += 1
        if text[at] in pairs:
            closers.append(pairs[text[at]])
        elif text[at] == closers[-1]:
            closers.pop()
    return at + 1


def split(text, separator, brackets):
    """The parts of a text between separators that stand in no bracket of these."""
    parts, depth = [""], 0
    for c in text:
        depth += (c in brackets[0]) - (c in brackets[1])
        if c == separator and depth <= 0:
            parts.append("")
        else:
            parts[-1] += c
    return [" ".join(part.split()) for part in parts if part.strip()]


def bare(text):
    """A source text without comments, and with no brackets in its literals."""
    text = re.sub(r"//[^\n]*", "", text)
    text = re.sub(r'b?"(\\.|[^"\\])*"', '""', text)
    return re.sub(r"b?'(\\.|[^'\\])'", "' '", text)


def functions(path, text):
    for match in SIGNATURE.finditer(text):
        opens = text.index("(", match.end())
        at = matching(text, opens)
        parameters = split(text[opens + 1 : at - 1], ",", ("([{<", ")]}>"))
        facts = []
        while True:
            clause = re.compile(r"[^{]*?\b(requires|ensures|ghost)\b[^{]*").match(text, at)
            body = text.find("{", at)
            if not clause or clause.end() != body:
                break
            stop = matching(text, body)
            if clause.group(1) == "requires":
                facts += split(text[body + 1 : stop - 1], "×", ("([{", ")]}"))
            at = stop
        body = text.find("{", at)
        if ";" not in re.sub(r"\[[^\]]*\]", "", text[at:body]):
            yield Function(path, match.group(1), parameters, facts, text[body : matching(text, body)])


def shown(title, places, verbose):
    print(f"{title}: {len(places)}")
    for place in places if verbose else []:
        print(f"    {place}")


def lines(sources, pattern, outside=()):
    expression = re.compile(pattern)
    return [
        f"{path}: {line.strip()}"
        for path, text in sources.items()
        if path.split("/")[1] not in outside
        for line in text.split("\n")
        if expression.search(line)
    ]


def twins(all_functions):
    """Pairs of functions of 12 tokens or more, four in five of which are the same in the same order."""
    found = []
    for k, one in enumerate(all_functions):
        for two in all_functions[k + 1 :]:
            if min(len(one.tokens), len(two.tokens)) < 12:
                continue
            match = difflib.SequenceMatcher(None, one.tokens, two.tokens, autojunk=False)
            if match.real_quick_ratio() >= 0.8 and match.quick_ratio() >= 0.8 and match.ratio() >= 0.8:
                found.append(f"{one.name} and {two.name}: {match.ratio():.2f}")
    return found


def shared(groups):
    return [
        f"{fact}: {', '.join(names)}"
        for fact, names in sorted(groups.items(), key=lambda item: -len(item[1]))
        if len(names) >= 3
    ]


def main(verbose):
    sources = {}
    for path in sorted(glob.glob("crates/*/src/**/*.rt", recursive=True)):
        with open(path, encoding="utf-8") as file:
            sources[path] = bare(file.read())
    all_functions = [f for path, text in sources.items() for f in functions(path, text)]

    facts, together = defaultdict(list), defaultdict(list)
    for f in all_functions:
        for fact in f.facts:
            facts[re.sub(r"\.(old|now)\b", "", fact)].append(f.name)
        for k, one in enumerate(f.parameters):
            for two in f.parameters[k + 1 :]:
                together[f"{one} with {two}"].append(f.name)

    shown("1 own enums", lines(sources, r"^\s*(pub )?enum "), verbose)
    shown("1 tests of a number against 0", lines(sources, r"\bif\b.*(==|!=) 0 \{|\b0 [<=]=? .*\{$"), verbose)
    shown("1 a flag beside a place or a value", lines(sources, r"\w+: bool,.*\w+: usize|stopped"), verbose)
    shown("2 pairs of twin functions", twins(all_functions), verbose)
    shown("3 loops", lines(sources, r"\b(while|loop)\b.*\{$"), verbose)
    shown("3 loops that step an index by 1", lines(sources, r"^\s*\w+ \+= 1;"), verbose)
    shown("4 conversions, comparisons and printing by hand", lines(
        sources, r"fn (say|refused|larger|width|number|put_number)\b|as char|48 \+|- 48"), verbose)
    shown("5 facts that three or more functions ask for", shared(facts), verbose)
    shown("5 parameters that go together to three or more functions", shared(together), verbose)
    shown("6 arrays", lines(sources, r"\[[\w ]+; [\w* ]+\]"), verbose)
    shown("6 places of a row reckoned by hand", lines(sources, r"WIDTH \* "), verbose)
    shown("7 matches", lines(sources, r"\bmatch\b"), verbose)


main("-v" in sys.argv[1:])
