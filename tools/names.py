#!/usr/bin/env python3
"""Checks what the pages name: links, files, theorems, examples, and what has to be listed somewhere.

    tools/names.py [--renumber]

Read are README.md, CONTRIBUTING.md and the pages in docs/, tools/, examples/, loader/ and c/. For each of them:

- a link to a file of the repository leads to one, and to a heading of it if it names one;
- a file or folder that is named in a code span or in a command is there;
- in a table with the columns Theorem (or Definition, or Contract) and File each name is declared in one of the files, and
  a column Lines has the number of its lines, whose sum is behind 'That is' and before 'lines of definitions'. --renumber
  writes these numbers into the page;
- in a table that begins with Case, and behind the word 'Case' in a text, the script and what it becomes are those of the
  stored case with that number (crates/vectors/stdin, which the program vectors replays). --renumber looks for the case by its text
  and writes its number into the page;
- docs/MAP.md names every crate, every file of specs/ and every page of docs/; a page docs/DECISIONS-*.md links to each of
  its headings on top, and tools/README.md names every tool;
- where a page says how many departures there are, docs/DEPARTURES.md has so many entries.

Prints a line for each thing that is not as it should be, then how much was looked at. The status is 1 if there is one.
"""
import argparse
import collections
import glob
import os
import re
import sys

import cases
import show

ROOT = cases.ROOT
PAGES = ["README.md", "CONTRIBUTING.md", "docs/*.md", "tools/*.md", "examples/*.md", "loader/*.md", "c/*.md"]
# The endings by which a code span is known to name a file.
ENDINGS = "antt rt py js rs c h md txt edit toml tree list sh"
# Files that the pages name and that are not here: those of the Rust module's crate and of the kit, older ones, and what is made.
OUTSIDE = {"object_rest_spread.rs", "port.py", "snake.py", "context.rs", "ast_builder.rs", "helper_loader.rs", "document01.txt", "Proof.antt", "Cargo.toml", "src/entry.rs", "lowered.tree", "lowered.list", "proofs/out/needs_escape/Answers.antt"}
TOPS = ("crates", "docs", "tools", "loader", "examples", "c", "helpers", ".ci")
NAMED = ("Theorem", "Definition", "Contract")
# What rt makes of a crate; no file of the repository.
MADE = r"crates/\w+/out(/|$)"
CODE = r"`` .+? ``|`[^`]+`"


class Checker:
    def __init__(self):
        self.wrong, self.counts, self.total = [], collections.Counter(), 0
        self.stored = cases.load_stored()
        self.headings = {}
        self.files = {os.path.basename(name) for name in tracked()}

    def bad(self, page, what):
        self.wrong.append(f"{page}: {what}")

    def anchors(self, path):
        if path not in self.headings:
            seen, found = collections.Counter(), set()
            for line in without_blocks(text_of(path)).splitlines():
                if title := re.match(r"#+ (.*)", line):
                    slug = slug_of(title[1])
                    found.add(f"{slug}-{seen[slug]}" if seen[slug] else slug)
                    seen[slug] += 1
            self.headings[path] = found
        return self.headings[path]

    # ---- links and files

    def links(self, page, text):
        for target in re.findall(r"\]\(([^)\s]+)\)", text):
            if "://" in target or target.startswith("mailto:"):
                continue
            self.counts["links"] += 1
            name, _, anchor = target.partition("#")
            path = os.path.normpath(os.path.join(ROOT, os.path.dirname(page), name)) if name else os.path.join(ROOT, page)
            if not os.path.exists(path):
                self.bad(page, f"the link {target} leads nowhere")
            elif anchor and anchor not in self.anchors(path):
                self.bad(page, f"the link {target} leads to no heading")

    def paths(self, page, text):
        for span in spans(text):
            is_file = re.fullmatch(rf"[\w./+-]+\.({ENDINGS.replace(' ', '|')})", span)
            is_path = re.fullmatch(rf"({'|'.join(map(re.escape, TOPS))})/[\w./+-]*", span)
            if not is_file and not is_path or span in OUTSIDE or "NAME" in span or os.path.basename(span) in OUTSIDE or re.match(MADE, span):
                continue
            self.counts["file names"] += 1
            if not self.exists(page, span):
                self.bad(page, f"`{span}` is not there")

    def commands(self, page, text):
        """Files in blocks of commands, which have no language behind the signs that begin them."""
        for block in re.findall(r"^```\n(.*?)^```$", text, re.M | re.S):
            for word in re.findall(rf"(?<![\w./-])(?:\.\./)?(?:{'|'.join(map(re.escape, TOPS))})/[\w./+-]+", block):
                if re.search(MADE, word):
                    continue
                self.counts["file names"] += 1
                if not os.path.exists(os.path.join(ROOT, os.path.dirname(page), word)) and not os.path.exists(os.path.join(ROOT, word)):
                    self.bad(page, f"{word} in a command is not there")

    def exists(self, page, name):
        places = [ROOT, os.path.join(ROOT, os.path.dirname(page)), *glob.glob(os.path.join(ROOT, "crates")), *glob.glob(os.path.join(ROOT, "crates", "*"))]
        if any(os.path.exists(os.path.join(place, name)) for place in places):
            return True
        return "/" not in name and name in self.files

    # ---- tables

    def lines(self, page, text, renumber):
        """Lengths of files in tables, and their sum; returns the page with its numbers put right if they are to be."""
        out, total = [], 0
        for line, (header, row) in zip(text.splitlines(keepends=True), table_lines(text)):
            out.append(line)
            if not header or "File" not in header or "Lines" not in header:
                continue
            for name in spans(row[header.index("File")]):
                path = os.path.join(ROOT, "crates", name)
                count = len(text_of(path).splitlines()) if os.path.exists(path) else 0
                total += count
                self.counts["lengths"] += 1
                was = row[header.index("Lines")]
                if was != f"{count:,}" and renumber:
                    out[-1] = line.replace(f"| {was} |", f"| {count:,} |")
                elif was != f"{count:,}":
                    self.bad(page, f"{name} has {count:,} lines")
        self.total = self.total or total
        return "".join(out)

    def sums(self, page, text, renumber):
        def right(said):
            self.counts["numbers"] += 1
            if said[0] != f"{self.total:,}" and not renumber:
                self.bad(page, f"{said[0]} lines of definitions: there are {self.total:,}")
            return f"{self.total:,}" if renumber else said[0]

        return re.sub(r"(?<=That is )[\d,]+(?= lines)|[\d,]+(?= lines of definitions)", right, text)

    def theorems(self, page, text):
        for header, row in table_rows(text):
            named = [i for i, title in enumerate(header) if title in NAMED]
            if "File" not in header or not named or len(row) != len(header):
                continue
            files = spans(row[header.index("File")])
            sources = {name: text_of(os.path.join(ROOT, "crates", name)) for name in files if os.path.exists(os.path.join(ROOT, "crates", name))}
            for name in set(files) - set(sources):
                self.bad(page, f"crates/{name} is not there")
            for i in named:
                for name in spans(row[i]):
                    self.counts["theorems"] += 1
                    if not any(declares(source, name) for source in sources.values()):
                        self.bad(page, f"{name} is not declared in {', '.join(files) or 'any file'}")

    # ---- examples

    def examples(self, page, text, renumber):
        """Examples in tables and in texts; returns the page with its numbers put right if they are to be."""
        found, at = [], 0
        for line, (header, row) in zip(text.splitlines(keepends=True), table_lines(text)):
            number = re.match(r"\|\s*(\d+)\s*\|", line)
            if number and header and header[0] == "Case":
                found.append((at + number.start(1), number[1], row[1:]))
            at += len(line)
        said = rf"[Cc]ase (\d+):?\s+({CODE})(?:[^`]*?)\s(?:gives|prints)\s+({CODE})(?:,\s+list\s+({CODE}))?"
        found += [(m.start(1), m[1], [m[2], m[3], m[4] or ""]) for m in re.finditer(said, text)]
        for place, number, cells in sorted(found, reverse=True):
            self.counts["examples"] += 1
            words = [squeezed(spans(cell)[0]) if spans(cell) else "" for cell in cells]
            if 1 <= int(number) <= len(self.stored) and fits(self.stored[int(number) - 1], words):
                continue
            other = [at for at, case in enumerate(self.stored, 1) if fits(case, words)]
            if renumber and other:
                text = text[:place] + str(other[0]) + text[place + len(number) :]
            else:
                self.bad(page, f"case {number} is not {words[0]} giving {words[1]}" + (f" (it is case {other[0]})" if other else ""))
        return text

    def departures(self, page, text):
        entries = len(re.findall(r"^### ", text_of(os.path.join(ROOT, "docs", "DEPARTURES.md")), re.M))
        for number in re.findall(r"(\d+) departures", text):
            self.counts["numbers"] += 1
            if int(number) != entries:
                self.bad(page, f"{number} departures: {entries} are listed")

    # ---- what has to be listed

    def listed(self):
        spoken = " ".join(spans(text_of(os.path.join(ROOT, "docs", "MAP.md"))))
        words = set(re.findall(r"[\w.-]+", spoken))
        for line in text_of(os.path.join(ROOT, "crates.txt")).splitlines():
            crate = next(iter(line.partition(":")[0].split()), "#")
            if not crate.startswith("#") and crate not in words:
                self.bad("docs/MAP.md", f"the crate {crate} is not named")
        text = text_of(os.path.join(ROOT, "docs", "MAP.md"))
        for path in sorted(glob.glob(os.path.join(ROOT, "crates", "*", "specs", "*.antt"))):
            name, crate = os.path.basename(path)[:-5], path.split(os.sep)[-3]
            part = re.search(rf"^##+ .*`{crate}`.*?(?=^##|\Z)", text, re.M | re.S)
            if name != "Lib" and (not part or name not in spans(part[0])):
                self.bad("docs/MAP.md", f"crates/{crate}/specs/{name}.antt is not named")
        for page in sorted(glob.glob(os.path.join(ROOT, "docs", "*.md"))):
            name = os.path.basename(page)
            if name != "MAP.md" and f"({name})" not in text:
                self.bad("docs/MAP.md", f"{name} is not linked")
            if name.startswith("DECISIONS-"):
                for title in re.findall(r"^### (.*)", text_of(page), re.M):
                    if f"(#{slug_of(title)})" not in text_of(page):
                        self.bad(f"docs/{name}", f"'{title}' is not in the list of titles")
        tools = spans(text_of(os.path.join(ROOT, "tools", "README.md")))
        for path in tracked():
            if path.startswith("tools/") and not path.endswith(".md") and not any(tool.split()[0] == path[6:] for tool in tools if tool.strip()):
                self.bad("tools/README.md", f"{path} is not named")


def tracked():
    """The files of the repository, what is made and hidden ones aside."""
    for folder, below, names in os.walk(ROOT):
        at = os.path.relpath(folder, ROOT)
        below[:] = [name for name in below if name not in ("target", ".git", "__pycache__") and not re.match(MADE, os.path.join(at, name))]
        for name in names:
            yield os.path.relpath(os.path.join(folder, name), ROOT)


def text_of(path):
    with open(path, encoding="utf-8") as page:
        return page.read()


def without_blocks(text):
    return re.sub(r"^ *```.*?^ *```$", "", text, flags=re.M | re.S)


def slug_of(title):
    return re.sub(r"[^\w\- ]", "", title.lower()).replace(" ", "-")


def spans(text):
    return [word[3:-3] if word.startswith("`` ") else word[1:-1] for word in re.findall(CODE, text, re.S)]


def squeezed(text):
    return " ".join(text.split())


def table_lines(text):
    """For each line the header of its table and its cells; neither for a line that is no row."""
    header = None
    for line in text.splitlines():
        if not line.startswith("|"):
            header = None
            yield None, None
            continue
        hidden = re.sub(CODE, lambda span: span[0].replace("|", "\0"), line.strip())
        cells = [cell.strip().replace("\0", "|") for cell in hidden.strip("|").split("|")]
        is_row = header and not re.fullmatch(r"[|:\- ]+", line)
        yield (header, cells) if is_row else (None, None)
        header = header or cells


def table_rows(text):
    """Each row of each table with the table's header."""
    return [(header, row) for header, row in table_lines(text) if header]


def declares(source, name):
    word = re.escape(name)
    return re.search(rf"^\s*(?:(?:unfoldable|abbrev|shut|pub|pub\(crate\)|data|record|mutual|type|struct|enum|extern \"C\"|fn)\s+)*{word}(?=[\s:({{<])", source, re.M)


def fits(case, words):
    """Whether a stored case has this text and what is said to come out."""
    script, result, *listed = words
    try:
        if squeezed(show.tree_text(case.tree, False)) != script:
            return False
        if isinstance(case, cases.Reading):
            return result == (f"0 {len(case.tree)} {case.mark}" if case.answer == 0 else str(case.answer))
        if case.options or case.answer:
            return not case.options and result == str(case.answer)
        return squeezed(show.tree_text(case.result, True)) == result and show.list_text(case.listed) == (listed[0] if listed else "")
    except (show.NoTree, RecursionError):
        return False


def write(path, text, changed):
    if changed != text:
        with open(path, "w", encoding="utf-8") as out:
            out.write(changed)
        print(f"{os.path.relpath(path, ROOT)}: renumbered")


def main():
    words = argparse.ArgumentParser(description=__doc__.splitlines()[0])
    words.add_argument("--renumber", action="store_true", help="put the numbers of cases and lines right")
    given = words.parse_args()
    checker = Checker()
    pages = sorted(path for pattern in PAGES for path in glob.glob(os.path.join(ROOT, pattern)))
    for path in pages:
        page, text = os.path.relpath(path, ROOT), text_of(path)
        checker.links(page, without_blocks(text))
        checker.paths(page, without_blocks(text))
        checker.commands(page, text)
        checker.theorems(page, text)
        checker.departures(page, text)
        write(path, text, checker.examples(page, checker.lines(page, text, given.renumber), given.renumber))
    for path in pages:
        text = text_of(path)
        write(path, text, checker.sums(os.path.relpath(path, ROOT), text, given.renumber))
    checker.listed()
    for line in checker.wrong:
        print(line)
    counts = ", ".join(f"{count} {what}" for what, count in sorted(checker.counts.items()))
    print(f"{len(pages)} pages, {counts}: {len(checker.wrong)} wrong")
    sys.exit(1 if checker.wrong else 0)


if __name__ == "__main__":
    main()
