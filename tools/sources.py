"""The public calls of the libraries, read from their sources: what `tools/calls` prints and `checks/table_of_calls` looks at.

A public call is a `pub fn` of a type or a module that its crate's lib.rt passes on, or a method of such a public trait; programs, crates of tests, laws and what
is ghost have none.
"""
import os
import re

TOP = os.path.dirname(os.path.dirname(os.path.realpath(__file__)))
ITEM = re.compile(
    r"#\[cfg\(test\)\]\s*(?:pub\s+)?mod\s+\w+\s*[{;]"  # tests beside the code
    r"|\bmod\s+\w+\s*(?P<module>\{)"
    r"|(?P<impl>\bimpl\b)"
    r"|(?P<trait_open>pub\s+)?\btrait\s+(?P<trait>\w+)"
    r"|(?P<test>#\[test\])"
    r"|(?P<open>pub\s+)?(?:const\s+|unsafe\s+)*\bfn\s+(?P<call>\w+)"
    r"|\{"
)
CLAUSE = re.compile(r"\b(?P<kind>requires|ensures)\s*(?P<name>\w*)\s*$")


def blanked(text):
    """The text with what stands in comments, strings and characters left blank, and as long as before."""
    pattern = re.compile(r"//[^\n]*|/\*.*?\*/|\"(?:\\.|[^\"\\])*\"|'(?:\\x[0-9a-f]{2}|\\.|[^\\'\n])'", re.S)
    return pattern.sub(lambda found: re.sub(r"[^\n]", " ", found[0]), text)


def closing(text, at):
    """Where the bracket closes that opens here."""
    pairs, depth = {"{": "}", "(": ")", "<": ">"}, 0
    for place in range(at, len(text)):
        if text[place] == text[at]:
            depth += 1
        elif text[place] == pairs[text[at]] and not (text[at] == "<" and text[place - 1] in "-="):
            depth -= 1
            if not depth:
                return place
    raise ValueError(f"no end of {text[at : at + 40]}")


class Call:
    """A function of the sources."""

    def __init__(self, crate, owner, name, is_public, is_test):
        self.crate, self.owner, self.name, self.is_public, self.is_test = crate, owner, name, is_public, is_test
        self.clauses, self.conditions, self.body, self.plain, self.module, self.arms = [], [], "", "", "", None
        self.page, self.head, self.said = [], "", []

    @property
    def title(self):
        return f"{self.owner}::{self.name}" if self.owner else self.name

    def read(self, text, at, plain):
        """Reads the clauses and the body from behind the name on; gives where the function ends."""
        first = at
        if text[at] == "<":
            at = closing(text, at) + 1
        begin = at = closing(text, text.index("(", at)) + 1
        while True:
            found = re.compile(r"[{;]").search(text, begin)
            between = text[at : found.start()]
            if found[0] == ";" and between.count("[") > between.count("]"):
                begin = found.end()
                continue
            if found[0] == ";":
                self.head = self.head or plain[first : found.start()]
                return found.end()
            end, clause = closing(text, found.start()) + 1, CLAUSE.search(between)
            self.head = self.head or plain[first : at + clause.start() if clause else found.start()]
            if not clause:
                self.body, self.plain = text[found.start() : end], plain[found.start() : end]
                return end
            names = self.clauses if clause["kind"] == "ensures" else self.conditions
            names.append(clause["name"] or clause["kind"])
            self.said.append(re.sub(r"\s+", " ", plain[at + clause.start() : end]).strip())
            begin = at = end


class Source:
    """The functions of one file."""

    def __init__(self, crate, path):
        self.crate, self.calls, self.module = crate, [], os.path.basename(path)[:-3]
        with open(path) as source:
            self.plain = source.read()
        self.text = blanked(self.plain)
        self.read(0, len(self.text), None, False, False)

    def page_above(self, at):
        """The lines of `///` above what stands here, attributes between them left out."""
        lines, page = self.plain[:at].split("\n")[:-1], []
        while lines and re.match(r" *(///|#\[|\)?\]$)", lines[-1]):
            line = lines.pop().strip()
            page += [line[3:].removeprefix(" ")] if line.startswith("///") else []
        return page[::-1]

    def owner_of(self, head):
        """The type of an `impl`, and whether it is one of a trait."""
        head = re.sub(r"\s+", " ", head).strip()
        if head.startswith("<"):
            head = head[closing(head, 0) + 1 :].strip()
        parts = re.split(r"\bwhere\b", head)[0].split(" for ")
        found = re.match(r"&?(?:\w+::)*(\w+)", parts[-1].strip())
        return found[1] if found else parts[-1], len(parts) > 1

    def read(self, at, end, owner, is_of_trait, is_in_public_trait):
        is_test = False
        while found := ITEM.search(self.text, at, end):
            at = found.end()
            if found["test"]:
                is_test = True
            elif found["call"]:
                is_public = is_in_public_trait or bool(found["open"]) and not is_of_trait
                call = Call(self.crate, owner, found["call"], is_public, is_test)
                at = call.read(self.text, at, self.plain)
                call.module, call.page = self.module, self.page_above(found.start())
                self.calls.append(call)
                is_test = False
            else:
                at = self.read_block(found)

    def read_block(self, found):
        """Reads what stands in a module, an `impl` or a trait, and passes over any other block; gives where it ends."""
        if found[0].endswith(";"):
            return found.end()
        opens = self.text.index("{", found.end() - 1)
        ends = closing(self.text, opens)
        if found["module"]:
            self.read(opens + 1, ends, None, False, False)
        elif found["impl"]:
            of, is_of_trait = self.owner_of(self.text[found.end() : opens])
            self.read(opens + 1, ends, of, is_of_trait, False)
        elif found["trait"]:
            self.read(opens + 1, ends, found["trait"], False, bool(found["trait_open"]))
        return ends + 1


def folder_of(crate):
    return os.path.join(TOP, "crates", crate, "src")


def crates():
    with open(os.path.join(TOP, "crates.txt")) as lines:
        return [line.split(":")[0].strip() for line in lines if line.strip() and not line.startswith("#")]


def sources(crate):
    for folder, _, files in os.walk(folder_of(crate)):
        for name in sorted(files):
            if name.endswith(".rt"):
                yield Source(crate, os.path.join(folder, name))


def passed_on(crate):
    """The names that a library gives its callers; none where the crate is a program."""
    path = os.path.join(folder_of(crate), "lib.rt")
    if os.path.exists(os.path.join(folder_of(crate), "main.rt")) or not os.path.exists(path):
        return set()
    with open(path) as source:
        uses = re.findall(r"pub\s+use\s+([^;]+);", blanked(source.read()))
    words = ",".join(re.sub(r".*\{(.*)\}", r"\1", use, flags=re.S) for use in uses)
    return {re.split(r"::| as ", word)[-1].strip() for word in words.split(",") if word.strip()}


def public_of(crate, calls):
    """The public calls among those of a crate's sources, by their titles."""
    names = passed_on(crate)
    return {call.title: call for call in calls if call.is_public and (call.owner or call.name) in names and not call.name.startswith("law_")}


SHOWN = os.path.join(TOP, "checks", "shown_by")


def shown():
    """What asks each public call, by `checks/shown_by`: its crate, its title and what stands behind it, a line each."""
    crate = None
    with open(SHOWN, encoding="utf-8") as lines:
        for line in lines:
            if line.startswith("## "):
                crate = line[3:].strip()
            elif found := re.fullmatch(r"`([\w:]+)` (.*)\n", line):
                yield crate, found[1], found[2]
