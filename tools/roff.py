"""Pages for `man`: a page of the repository, as Markdown has it, as roff."""
import re

CELL = re.compile(r"(?<!\\)\|")
LINK = re.compile(r"\[([^\]]*)\]\([^)]*\)")


def text_of(words):
    """A text as roff has it: code and what is emphasized in bold, links as their words."""
    words = LINK.sub(r"\1", words).replace("\\|", "|")
    words = re.sub(r"\*\*([^*]+)\*\*", lambda it: f"`{it[1].replace('`', '')}`", words)
    found = []
    for place, part in enumerate(re.split(r"`([^`]+)`", words)):
        part = part.replace("\\", "\\e").replace("-", "\\-")
        found.append(f"\\fB{part}\\fR" if place % 2 else part)
    line = "".join(found)
    return "\\&" + line if line[:1] in (".", "'") else line


def of_row(names, cells):
    """A row of a table: its first cell that has words, and what the others say of it, from the third on after the names of their columns."""
    said = [(place, text_of(name.strip()), text_of(it.strip())) for place, (name, it) in enumerate(zip(names, cells)) if it.strip()]
    if not said:
        return []
    rest = [it if place < 2 or not name else f"{name}: {it}" for place, name, it in said[1:]]
    return [".TP", said[0][2], ". ".join(rest) or "\\&"]


def of_lines(lines):
    """What stands between two headings."""
    rows, names, code, para, found = 0, [], False, [], []

    def end():
        if para:
            found.append(text_of(" ".join(para)))
            para.clear()

    for line in lines:
        if line.startswith("```"):
            end()
            found.append(".EE" if code else ".PP\n.EX")
            code = not code
        elif code:
            found.append("\\&" + line.replace("\\", "\\e").replace("-", "\\-"))
        elif line.startswith("|"):
            end()
            rows += 1
            cells = CELL.split(line.strip().removeprefix("|").removesuffix("|"))
            # (the first row names the columns, the second is a rule)
            names = cells if rows == 1 else names
            found.extend(of_row(names, cells) if rows > 2 else [])
        elif not line.strip():
            end()
            if rows or not (found and found[-1] == ".PP"):
                found.append(".PP")
            rows = 0
        elif line.startswith("- ") or re.match(r"\d+\. ", line):
            end()
            mark, _, rest = line.partition(" ")
            found.append(".IP " + ("\\(bu" if mark == "-" else mark) + " 3")
            para.append(rest.strip())
        else:
            para.append(line.strip())
    end()
    return found


def of_page(markdown):
    """A page of the repository, without its title, as sections of a page for `man`."""
    found = []
    for part in re.split(r"(?m)^(?=#+ )", markdown)[1:]:
        head, _, rest = part.partition("\n")
        level, title = head.split(" ", 1)
        if len(level) > 1:
            found.append((".SH " + text_of(title).upper()) if len(level) == 2 else ".SS " + text_of(title))
        found.extend(of_lines(rest.split("\n")))
    return "\n".join(found) + "\n"
