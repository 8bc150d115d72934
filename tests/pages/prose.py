#!/usr/bin/env python3
"""Checks how README.md, the pages of docs/ and the comments of all sources are written.

tests/pages/prose.py [PAGE, SOURCE or FOLDER..]

Without words all are checked. No sentence may have more than 35 words, no table cell more than 60,
and no page more than PAGES says (as `wc -w` counts). None of the words in WORDS may stand there,
and no link may lead nowhere. Code is not prose: blocks are passed over, and a piece of inline code
is one word of its sentence.

Of a source (COMMENTS has the endings), the lines of a comment are one text; so are those of a
Python docstring. A line in which blanks set a name apart from what it is begins a text of its own.

The checks are first tried on text that has each fault and on text that has none (SAMPLES, SOURCES).
"""
import os
import re
import sys

TOP = os.path.dirname(os.path.dirname(os.path.dirname(os.path.realpath(__file__))))
LONGEST_SENTENCE = 35
LONGEST_CELL = 60

# Each page and the words that it may have.
PAGES = {
    "CHANGELOG.md": 2200,
    "CONTRIBUTING.md": 700,
    "README.md": 1000,
    "SECURITY.md": 450,
    "docs/AT.md": 900,
    "docs/COMMANDS.md": 5200,
    "docs/DECISIONS.md": float("inf"),  # no decision has to go because another one comes
    "docs/FIRST_HOUR.md": 500,
    "docs/FORMAT.md": 3700,
    "docs/GDB.md": 1500,
    "docs/GUIDE.md": 7000,
    "docs/INTERNALS.md": 3850,
    "docs/JSON.md": 1550,
    "docs/MEMORY.md": 1300,
    "docs/ORDERS.md": 1800,
    "docs/PROOF.md": 3050,
    "docs/PYTHON.md": 600,
    "docs/RUN.md": 1000,
    "docs/SHRINK.md": 1050,
    "docs/VIEW.md": 1300,
    "docs/WHY.md": 1800,
}

# What "where" may follow: a place, or a verb that asks for one.
PLACES = ("line place point folder address page file function see says show shows know find "
          "from of".split())
NO_PLACE = "".join(rf"(?<!\b{word}\s)" for word in PLACES)

# Words that only insiders understand, as regular expressions, and what to write in their place. One
# that begins with a capital letter matches that letter alone; all others match in either case.
WORDS = [
    (r"want of memory|wants? of memory", "out of memory"),
    (r"(?:was|is|were|are|isn't|wasn't) wanting|starved", "out of memory"),
    (r"wants? (?:no |more |the )?memory", "needs memory"),
    (r"wrong bod(?:y|ies)", "mutant"),
    (r"(?:go|goes|went|going|gone) by", "according to, is determined by"),
    (r"settle[sd]?|settling", "determine, reconcile"),
    (r"(?:stand|stands|stood|standing) behind", "after, follow"),
    (r"(?:stand|stands|stood|standing) for", "represent"),
    (r"(?:a|each|every|any|no|whose|its) front|fronts|nearer the front", "prefix, beginning"),
    (r"lend|lends|lent|lending", "pass by reference"),
    (r"dear|dearer|dearest", "expensive, large"),
    (r"yet", "nothing: say what is, not what was or will be"),
    (r"as before|as ever", "nothing: say what is, not what was"),
    (r"anew", "again"),
    (r"(?:isn't|is not|aren't|are not) promised", "not guaranteed"),
    (r"(?:store|file|input|output)s? tells?|holds? what (?:it|they) tells?",
     "contain what was last written"),
    (r"tell(?:s)? (?:its|their) files", "contain what was last written"),
    (r"Where(?! (?:is|are|was|were|do|does|did|to)\b)", "if, when (where is for places)"),
    (r"(?:exactly|only|just|also|but|except|unless|even|so|and) where",
     "if, when (where is for places)"),
    (NO_PLACE + r"(?-i:where) (?:memory|there|a|an|no|one|each|it|they|the "
     r"(?:store|run|log|replay))", "if, when"),
    (r"(?:a|each|every|second|such a|one) touch|touches of", "access"),
    (r"falls? at|stops? being listed", "evict"),
    (r"stretch(?:es)?", "interval; epoch in the race log"),
    (r"desks?", "turn port (of a hart), session (of the debugger)"),
    (r"Course|Terms|OwnPlace|Manner|Renewed", "the type's present name"),
    (r"(?:go|goes|went|going) on", "continue"),
]

# Text, and the faults that it has. The checks of this page are as good as these.
SAMPLES = [
    ("A short sentence. " * 40, []),
    ("One word " + "and one more " * 12 + "end.", ["sentence of 39 words"]),
    ("word " * 34 + "word. " + "word " * 34 + "word.", []),
    ("word " * 35 + "word.", ["sentence of 36 words"]),
    ("word " * 20 + "`some code that is one word` " + "word " * 14 + "word.",
     ["sentence of 36 words"]),
    ("- " + "word " * 34 + "word\n- " + "word " * 34 + "word\n", []),
    ("word " * 20 + "\n" + "word " * 20 + "\n", ["sentence of 40 words"]),
    ("word " * 20 + "e.g. " + "word " * 20, ["sentence of 41 words"]),
    ("```\n" + "word " * 40 + "\n\nMemory is wanting.\n\n```\n", []),
    ("| a | b |\n|---|---|\n| " + "A cell. " * 30 + "| b |\n", []),
    ("| a | b |\n|---|---|\n| " + "A cell. " * 31 + "| b |\n", ["cell of 62 words"]),
    ("Memory is wanting.", ["'is wanting'"]),
    ("Want of memory.", ["'Want of memory'"]),
    ("A cost goes\nby steps.", ["'goes by'"]),
    ("Where memory ends it stops, as it does where a write fails.", ["'Where'", "'where a'"]),
    ("It names the line where it stopped.", []),
    ("Where is the file?", []),
    ("It says \"memory is wanting\", or `goes by`.", []),
    ("Of course, it is done.", []),
    ("The wrong bodies.", ["'wrong bodies'"]),
    ("See [the page](docs/NOWHERE.md).", ["docs/NOWHERE.md is not there"]),
    ("See `docs/NOWHERE.md`.", ["docs/NOWHERE.md is not there"]),
    ("# A title, twice\n\nSee [above](#a-title-twice) and [below](#below).",
     ["#below is no heading"]),
    ("See [tests](tests/pages/prose.py) and [a site](https://example.org/x).", []),
]

# The comments of each kind of source: strings are matched first, so that a mark inside one begins
# no comment.
STRING = r'"(?:\\.|[^"\\])*"'
SHORT_STRING = r"\"(?:\\.|[^\"\\\n])*\"|'(?:\\.|[^'\\\n])*'"
DOCSTRING = r'^[ \t]*[a-z]?"""(?P<text>(?:\\.|[^\\])*?)"""'
MARKS = {
    ".rt": (rf'r(?P<hashes>#*)".*?"(?P=hashes)|{STRING}|\'(?:\\.|[^\'\\])\'|'
            r"(?P<mark>//[/!]?)(?P<line>[^\n]*)"),
    ".antt": rf"{STRING}|(?P<mark>(?<!\S)--)(?P<line>[^\n]*)",
    ".py": rf'{DOCSTRING}|"""(?:\\.|[^\\])*?"""|{SHORT_STRING}|(?P<mark>#)(?!!)(?P<line>[^\n]*)',
    ".sh": r"'[^'\n]*'|\"(?:\\.|[^\"\\\n])*\"|(?P<mark>(?<!\S)#)(?!!)(?P<line>[^\n]*)",
    ".edit": r"(?P<mark>^#)(?P<line>[^\n]*)",
}
COMMENTS = {ending: re.compile(pattern, re.S | re.M) for ending, pattern in MARKS.items()}
ALIKE = {".bash": ".sh", "zelkuma": ".sh", "run": ".sh", "crates.txt": ".edit"}

# Sources, and the faults that their comments have, each as line and words.
LONG = "word " * 20
SOURCES = [
    (".rt", "//! A cost\n//! goes by steps.\nfn f() {}\n", [(2, "'goes by'")]),
    (".rt", '/// It is "wanting".\nlet a = "// a cost goes by steps";\n', []),
    (".rt", 'let a = r#"a " // yet"#;\nlet b = \'"\'; // not yet\nlet c = "yet";\n',
     [(2, "'yet'")]),
    (".rt", "    'oldest: while true { // as before\n    'next: loop {} // `anew`\n",
     [(1, "'as before'")]),
    (".rt", f"// {LONG}\n// {LONG}\n", [(1, "sentence of 40 words")]),
    (".rt", f"//! {LONG}\n// {LONG}\n", []),
    (".rt", f"// {LONG}\n//\n// {LONG}\n", []),
    (".rt", f"// {LONG}\nfn f() {{ // {LONG}\n    // {LONG}\n", []),
    (".rt", "/// One.\n///\n/// ```\n/// let yet = 1;\n/// ```\n/// Not yet.\n", [(6, "'yet'")]),
    (".antt", "-- the cost, which\n-- goes by steps\nlent : ℕ\n", [(2, "'goes by'")]),
    (".antt", 'a = codes "-- yet" -- yet\nx--dear = 1\n', [(1, "'yet'")]),
    (".antt", f"-- ---- {LONG}\n-- {LONG}\n", []),
    (".py", '"""A page.\n\nIt is dear.\n"""\na = "# dear"  # dear\n',
     [(3, "'dear'"), (5, "'dear'")]),
    (".py", 'a = """\n# not yet\n"""\nb = \'#\'\n', []),
    (".py", f'def f():\n    """{LONG}\n    {LONG}\n\n    {LONG}"""\n',
     [(2, "sentence of 40 words")]),
    (".py", f"a = 1  # {LONG}\n# {LONG}\nb = 2  # {LONG}\n", []),
    (".py", f'class A:\n    """first   {LONG}\n    second  {LONG}\n    {LONG}"""\n',
     [(3, "of 41 words")]),
    (".sh", "#!/bin/dear\n# It goes\n#   by steps.\na=${#dear} # yet\nb='# yet'\n",
     [(2, "'goes by'"), (4, "'yet'")]),
    (".sh", f"# {LONG}\n# {LONG}\nf() {{\n    [ $# = 0 ] && echo \"$# # yet\" # not dear\n}}\n",
     [(1, "of 40 words"), (4, "'dear'")]),
    (".sh", "awk '\n# anew, it doesn't end here\n{ print }' a#yet\n", [(2, "'anew'")]),
    (".edit", "# Not yet.\nfile: a.rt\nold: x # dear\nnew: # lent\n# as ever\n",
     [(1, "'yet'"), (5, "'as ever'")]),
]

CODE = "ξ"
ABBREVIATION = re.compile(r"(?:\be\.g|\bi\.e|\betc|\bcf|\bvs|\.)\.$")


def blanked(match, letter=" "):
    return letter * len(match.group())


def without_code(text):
    """Puts one long word in place of each piece of inline code, so that every offset stays as it
    is."""
    return re.sub(r"(`+)(?:(?!`).)+?\1(?!`)", lambda match: blanked(match, CODE), text, flags=re.S)


def without_marks(text):
    """Takes away comments, the targets of links, and other marks; every offset stays as it is."""
    text = re.sub(r"!?\[|\]\([^)\s]*\)|\]", blanked, text)
    text = re.sub(r"<br>", ".   ", text)
    return re.sub(r"\*+|<[a-z/!][^>]*>", blanked, text)


def prose_lines(text):
    """Yields number and text of each line that is neither code nor comment; an empty one in place
    of a block."""
    text = re.sub(r"<!--.*?-->",
                  lambda match: re.sub(r"[^\n]", " ", match.group()), text, flags=re.S)
    fence = None
    for number, line in enumerate(text.splitlines(), 1):
        mark = re.match(r"\s*(```+|~~~+)", line)
        if fence:
            fence = None if mark and mark.group(1).startswith(fence) else fence
            yield number, ""
        elif mark:
            fence = mark.group(1)
            yield number, ""
        else:
            yield number, re.sub(r"^\s*>\s?", "", line)


def cells_of(line):
    cells = re.split(r"(?<!\\)\|", line.strip().strip("|"))
    return [] if all(re.fullmatch(r"\s*:?-+:?\s*", cell) for cell in cells) else cells


def blocks(text):
    """Yields the paragraphs, headings, items and cells of a page: the kind, and the lines with
    their numbers."""
    kept = []
    for number, line in prose_lines(text):
        begins = re.match(r"\s*(?:[-*+]|\d+\.)\s+|#+\s", line)
        table = line.lstrip().startswith("|")
        if kept and (begins or table or not line.strip()):
            yield "text", kept
            kept = []
        if table:
            for cell in cells_of(line):
                yield "cell", [(number, cell)]
        elif line.lstrip().startswith("#"):
            yield "text", [(number, line.lstrip("# "))]
        elif line.strip():
            kept.append((number, line[begins.end() :] if begins else line))
    if kept:
        yield "text", kept


def words_in(text):
    return sum(any(letter.isalnum() for letter in word) for word in text.split())


def sentences(text):
    """Yields offset and text of each sentence. A point that ends an abbreviation ends none."""
    begin = 0
    for end in re.finditer(r"[.!?][\"')\]*_ ]*(?=\s|$)", text):
        mark = end.start() + 1
        if not ABBREVIATION.search(text[begin:mark]):
            yield begin, text[begin : end.end()]
            begin = end.end()
    yield begin, text[begin:]


def line_of(lines, offset):
    """Says in which line of a block an offset of its text is."""
    for number, line in lines:
        if offset <= len(line):
            return number
        offset -= len(line) + 1
    return lines[-1][0]


def length_faults(parts):
    for kind, lines in parts:
        whole = "\n".join(line for _, line in lines)
        prose = without_marks(without_code(whole))
        if kind == "cell" and words_in(prose) > LONGEST_CELL:
            yield lines[0][0], f"cell of {words_in(prose)} words"
        for offset, sentence in sentences(prose):
            if words_in(sentence) > LONGEST_SENTENCE:
                first = offset + len(sentence) - len(sentence.lstrip())
                beginning = " ".join(whole[first : first + 50].split())
                yield (line_of(lines, first),
                       f"sentence of {words_in(sentence)} words: {beginning} ..")


def pattern_of(words):
    spaced = words.replace(" ", r"\s+")
    return spaced if words[0].isupper() else f"(?i:{spaced})"


PATTERNS = [(re.compile(rf"\b(?:{pattern_of(words)})\b"), instead) for words, instead in WORDS]
ANY_WORD = re.compile(rf"\b(?:{'|'.join(pattern_of(words) for words, _ in WORDS)})\b")


def word_faults(parts):
    """Searches all blocks at once, which is quicker, with a mark between them that no pattern
    passes over."""
    texts = []
    numbered = []
    for _, lines in parts:
        prose = without_marks(without_code("\n".join(line for _, line in lines)))
        texts += [re.sub(r"\"[^\"]*\"|“[^”]*”", lambda match: blanked(match, CODE), prose), "¶"]
        numbered += [*lines, (0, "¶")]
    whole = "\n".join(texts)
    for pattern, instead in PATTERNS if ANY_WORD.search(whole) else []:
        for match in pattern.finditer(whole):
            found = " ".join(match.group().split())
            yield line_of(numbered, match.start()), f"'{found}': write {instead}"


def anchors(text):
    """The names of a page's headings, as GitHub makes them, and those that it gives itself."""
    names = []
    for _, line in prose_lines(text):
        names += re.findall(r"<a (?:id|name)=\"([^\"]+)\"", line)
        if re.match(r"#+\s", line):
            title = re.sub(r"\]\([^)]*\)", "", line.lstrip("# ").strip().lower())
            name = re.sub(r"[^\w\- ]", "", title).replace(" ", "-")
            names.append(f"{name}-{names.count(name)}" if name in names else name)
    return names


def target_fault(page, text, target):
    """Says what is wrong with the target of a link; None if it is there."""
    path, _, anchor = target.partition("#")
    full = os.path.normpath(os.path.join(TOP, os.path.dirname(page), path)) if path else None
    if full and not os.path.exists(full):
        return f"{path} is not there"
    if anchor and (full is None or full.endswith(".md")):
        if full:
            with open(full, encoding="utf-8") as file:
                text = file.read()
        if anchor not in anchors(text):
            return f"#{anchor} is no heading"
    return None


FILE = re.compile(
    r"`((?:docs|tests|tools|bench|examples|crates|companion|packaging|debian)/[\w./-]*\.[a-z]+)`"
)


def link_faults(text, page):
    for number, line in prose_lines(text):
        for target in re.findall(r"\]\(([^)\s]+)\)", re.sub(r"`[^`]*`", "", line)):
            fault = None if re.match(r"[a-z]+:", target) else target_fault(page, text, target)
            if fault:
                yield number, f"a link leads nowhere: {fault}"
        for path in FILE.findall(line):
            if not os.path.exists(f"{TOP}/{path}"):
                yield number, f"a file is named that there isn't: {path} is not there"


def size_faults(text, page):
    if page not in PAGES:
        yield 1, "is no page of the plan: write it into PAGES, or take it away"
    elif len(text.split()) > PAGES[page]:
        yield 1, f"has {len(text.split())} words, and may have {PAGES[page]}"


def comments_in(kind, text):
    """Yields line, column, mark and text of each line of a comment, and of each line of a
    docstring."""
    line = 1
    at = 0
    for found in COMMENTS[kind].finditer(text):
        line += text.count("\n", at, found.start())
        at = found.start()
        column = at - text.rfind("\n", 0, at) - 1
        parts = found.groupdict()
        if parts.get("mark"):
            alone = not text[at - column : at].strip()
            yield line, column if alone else None, parts["mark"], parts["line"]
        elif parts.get("text") is not None:
            for more, words in enumerate(parts["text"].split("\n")):
                yield line + more, at, "docstring", words


def comment_texts(kind, text):
    """Yields the comments of a source, each as the number of its first line and its text."""
    first = 0
    last = None
    lines = []
    for line, column, mark, words in comments_in(kind, text):
        title = re.match(r"\s*--+\s*", words)
        is_item = re.search(r"\S\s{2,}\S", words)
        place = (line, column, mark)
        if lines and (title or is_item or column is None or place != last):
            yield first, "\n".join(lines)
            lines = []
        first = first if lines else line
        lines.append(words[title.end() :] if title else words.strip())
        last = None if title or column is None else (line + 1, column, mark)
    if lines:
        yield first, "\n".join(lines)


def comment_blocks(kind, text):
    for first, comment in comment_texts(kind, text):
        for what, lines in blocks(comment):
            yield what, [(first + number - 1, line) for number, line in lines]


def comment_faults(kind, text):
    parts = list(comment_blocks(kind, text))
    return [*length_faults(parts), *word_faults(parts)]


def source_kind(path):
    """Says of which kind a source is; None if it isn't one."""
    name = os.path.basename(path)
    ending = os.path.splitext(name)[1]
    kind = ALIKE.get(name) or ALIKE.get(ending, ending)
    return kind if kind in COMMENTS else None


def page_checks(text, page):
    """Yields the faults of each check of a page or a source, as a list."""
    kind = source_kind(page)
    if kind:
        yield comment_faults(kind, text)
        return
    yield list(length_faults(blocks(text)))
    yield list(word_faults(blocks(text)))
    yield list(link_faults(text, page))
    yield list(size_faults(text, page))


def sample_fault(text, wanted):
    """Says how a sample's faults differ from what they should be; None if they don't."""
    parts = list(blocks(text))
    found = [*length_faults(parts), *word_faults(parts), *link_faults(text, "README.md")]
    told = [fault for _, fault in found]
    if len(told) == len(wanted) and all(any(part in fault for fault in told) for part in wanted):
        return None
    return f"has {told}, and should have {wanted}"


def source_fault(kind, text, wanted):
    """Says how the faults of a source's comments differ from what they should be; None if they
    don't."""
    found = comment_faults(kind, text)
    alike = [at == line and part in fault for (at, part), (line, fault) in zip(wanted, found)]
    return (None if len(found) == len(wanted) and all(alike)
            else f"has {found}, and should have {wanted}")


def try_samples():
    passed = failed = 0
    faults = [sample_fault(*sample) for sample in SAMPLES] + [source_fault(*source)
                                                              for source in SOURCES]
    for number, fault in enumerate(faults, 1):
        passed += fault is None
        failed += fault is not None
        if fault:
            print(f"tests/pages/prose.py: sample {number} {fault}")
    long_page = [fault for _, fault in size_faults("word " * 1001, "README.md")]
    if (long_page != ["has 1001 words, and may have 1000"]
            or list(size_faults("word " * 1000, "README.md"))):
        print("tests/pages/prose.py: a page of 1001 words, with 1000 allowed, "
              "is not told from one of 1000")
        return passed, failed + 1
    return passed + 1, failed


def sources_in(folder):
    """The sources at or below a folder, without what a build makes."""
    for path, folders, files in os.walk(os.path.join(TOP, folder)):
        folders[:] = sorted(name for name in folders if name not in (".git", "out", "__pycache__"))
        for name in sorted(files):
            if source_kind(name):
                yield os.path.relpath(os.path.join(path, name), TOP)


def all_pages():
    there = [f"docs/{name}" for name in os.listdir(f"{TOP}/docs") if name.endswith(".md")]
    return sorted({"README.md", *there, *PAGES})


def chosen(words):
    """The pages and sources that are to be checked."""
    if not words:
        return [*all_pages(), *sources_in(".")]
    paths = [os.path.relpath(os.path.realpath(word), TOP) for word in words]
    inside = [list(sources_in(path)) if os.path.isdir(f"{TOP}/{path}") else [path]
              for path in paths]
    return [path for several in inside for path in several]


def check_page(page):
    if not os.path.exists(f"{TOP}/{page}"):
        print(f"{page}: is not there")
        return 0, 1
    with open(f"{TOP}/{page}", encoding="utf-8") as file:
        text = file.read()
    passed = failed = 0
    for faults in page_checks(text, page):
        passed += not faults
        failed += len(faults)
        for number, fault in faults:
            print(f"{page}:{number}: {fault}")
    return passed, failed


def main():
    passed, failed = try_samples()
    for page in chosen(sys.argv[1:]):
        good, bad = check_page(page)
        passed += good
        failed += bad
    print(f"{passed} passed, {failed} failed")
    return 1 if failed else 0


sys.exit(main())
