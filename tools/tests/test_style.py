"""How pages and the crates' comments are written: in short sentences, paragraphs and lines, without words that have to be read twice."""
import pathlib
import re
import sys
import unittest

sys.path.insert(0, str(pathlib.Path(__file__).resolve().parent))
from rig import TOOLS  # pylint: disable=wrong-import-position

TOP = TOOLS.parent
SENTENCE = 30  # words at most
PARAGRAPH = 5  # sentences at most, besides a question or a name in bold at its head
LINE = 100  # columns at most
DOCS = 28_000  # words of docs/ at most
HEAVY = re.compile(r"\b(that which|so that of|as far as|such that)\b", re.IGNORECASE)
# Pages whose tables are looked up and not read: their words don't count.
LOOKED_UP = {"docs/CLAUSES.md", "docs/DEFINITIONS.md", "docs/PROTOCOL.md"}
COMMENT = re.compile(r"\s*//[/!]?(?: (.*))?$")
MADE = re.compile(r"(?ms)^<!-- made by .*?(?:^<!-- up to here -->$|\Z)")


def pages():
    """The pages that people write, by their paths."""
    paths = [TOP / "README.md", TOP / "CONTRIBUTING.md", *sorted(TOP.glob("docs/*.md")), TOP / "bench" / "README.md", TOP / "examples" / "README.md"]
    texts = {path.relative_to(TOP).as_posix(): path.read_text(encoding="utf-8") for path in paths}
    return {name: text for name, text in texts.items() if f"--write {name}" not in text}  # a page that says so is made by a tool


def prose(text):
    """The paragraphs and list items of a page, each with the number of its first line. Code, tables, headings and what tools make are left out."""
    text = MADE.sub(lambda made: "\n" * made[0].count("\n"), text)
    found, is_fenced, is_open = [], False, False
    for number, line in enumerate(text.splitlines(), 1):
        is_fenced ^= line.lstrip().startswith("```")
        if is_fenced or not line.strip() or re.match(r"\s*(\||#|```|<!--|!\[)", line) or (not is_open and re.match(r" {4}", line)):
            is_open = False
        elif is_open and not re.match(r"\s*([-*]|\d+\.) ", line):
            found[-1][1].append(line)
        else:
            found.append((number, [line]))
            is_open = True
    return found


def in_words(text):
    """A paragraph as it is read: a link is its text, and code is one word."""
    text = re.sub(r"`+[^`]*`+", "code", re.sub(r"\]\([^)]*\)", "", text))
    return re.sub(r"^\s*([-*]|\d+\.) |\*\*|[\[\]]", "", text)


def sentences(lines):
    text = in_words(" ".join(line.strip() for line in lines))
    return [it for it in re.split(r"(?<=[.!?])['\")]*\s+", text) if it]


def has_head(lines):
    return bool(re.match(r"\s*(?:(?:[-*]|\d+\.) )?\*\*[^*]*[.?]\*\*", " ".join(lines)))


def length(words):
    return sum(bool(re.search(r"\w", word)) for word in words.split())


def wide_lines(text):
    """The lines of a page that are too long."""
    said = []
    for number, lines in prose(text):
        for at, line in enumerate(lines):
            columns = len(re.sub(r"\]\([^)]*\)", "]", line))
            said += [f"line {number + at}: {columns} columns"] if columns > LINE else []
    return said


def hard_to_read(text):
    """The paragraphs, sentences and words of a page that have to be read twice."""
    said = []
    for number, lines in prose(text):
        said += [f"line {number}: a paragraph of {count} sentences"] if (count := len(sentences(lines)) - has_head(lines)) > PARAGRAPH else []
        for it in sentences(lines):
            said += [f"line {number}: a sentence of {length(it)} words: {it}"] if length(it) > SENTENCE else []
            said += [f"line {number}: '{word[0]}': {it}" for word in HEAVY.finditer(it)]
    return said


def faults(text):
    """What is wrong with a page, a line each."""
    return wide_lines(text) + hard_to_read(text)


def sources():
    """The crates' code, by the paths from crates/ on."""
    paths = sorted((TOP / "crates").glob("*/src/**/*.rt"))
    return {path.relative_to(TOP / "crates").as_posix(): path.read_text(encoding="utf-8") for path in paths}


def is_product(name):
    return not name.startswith(("bench_", "test_"))


def comments_of(source):
    """The comments of a source, as a page whose lines have the same numbers. Code is left out."""
    return "\n".join((match[1] or "") if (match := COMMENT.match(line)) else "" for line in source.splitlines())


def faults_of_source(source):
    """What is wrong with the comments of a source, a line each."""
    wide = [f"line {number}: {len(line)} columns" for number, line in enumerate(source.splitlines(), 1) if COMMENT.match(line) and len(line) > LINE]
    return wide + hard_to_read(comments_of(source))


class Style(unittest.TestCase):
    def test_pages(self):
        for name, text in pages().items():
            with self.subTest(name):
                self.assertEqual([], faults(text), f"{name}: short sentences, short lines")

    def test_comments(self):
        for name, text in sources().items():
            with self.subTest(name):
                self.assertEqual([], faults_of_source(text), f"crates/{name}: short sentences, short lines")

    def test_root_files_say_where_to_begin(self):
        for name, text in sources().items():
            if is_product(name) and name.endswith(("/src/lib.rt", "/src/main.rt")):
                with self.subTest(name):
                    number, lines = prose(comments_of(text))[0]
                    self.assertEqual(1, number, f"crates/{name} begins with what the crate is for")
                    self.assertGreaterEqual(len(sentences(lines)), 3, f"crates/{name}: what it is for, where to begin, what it leaves to whom")

    def test_docs_are_short(self):
        count = 0
        for name, text in pages().items():
            if name.startswith("docs/"):
                count += sum(length(line) for line in MADE.sub("", text).splitlines() if name not in LOOKED_UP or not line.startswith("|"))
        self.assertLessEqual(count, DOCS, "words in docs/")


class Faults(unittest.TestCase):
    """What the check finds, and what it leaves alone."""

    def test_long_sentence(self):
        self.assertEqual([], faults("- **A name.** " + "a " * 29 + "z.\n"))
        self.assertEqual(["line 1: a sentence of 31 words"], [it.rpartition(":")[0] for it in faults("- **A name.** " + "a " * 15 + "\n  " + "a " * 15 + "z. Another.\n")])

    def test_long_paragraph(self):
        self.assertEqual([], faults("**Is this one?** One. Two.\nThree. Four. Five.\n\nSix.\n"))
        self.assertEqual(["line 1: a paragraph of 6 sentences"], faults("One. Two. Three.\nFour. Five. Six.\n"))

    def test_sentences_end_at_their_dots(self):
        self.assertEqual(["One.", "Is it two?", "Three (of code 1.5)."], sentences(["One. **Is it", "two?** Three (of `a. b` 1.5)."]))

    def test_long_line(self):
        self.assertEqual(["line 3: 101 columns"], faults("# Head\n\n" + "a" * 101 + "\n"))
        self.assertEqual([], faults("[" + "a" * 90 + "](" + "b" * 90 + ")\n"))

    def test_heavy_words(self):
        self.assertEqual(1, len(faults("It is\nthat\nwhich is meant.\n")))

    def test_code_tables_and_headings_are_left_alone(self):
        long = "word " * 40
        self.assertEqual([], faults(f"# {long}\n\n    {long}\n\n```\n{long}\n```\n\n| {long} |\n\n![{long}](a.png)\n"))
        self.assertEqual([], faults(f"<!-- made by docs/levels --write -->\n{long}\n<!-- up to here -->\n"))

    def test_comments_of_a_source(self):
        source = "//! One.\n\n/// Two.\npub fn two() {\n    // Three,\n    // it is.\n    call();\n}\n"
        self.assertEqual("One.\n\nTwo.\n\nThree,\nit is.\n\n", comments_of(source))
        self.assertEqual([], faults_of_source(source))

    def test_long_sentence_of_a_comment(self):
        source = "fn one();\n\n/// " + "a " * 15 + "\n/// " + "a " * 15 + "z.\nfn two();\n"
        self.assertEqual(["line 3: a sentence of 31 words"], [it.rpartition(":")[0] for it in faults_of_source(source)])
        self.assertEqual([], faults_of_source(source.replace("\n/// a", ".\n///\n/// a")))

    def test_long_paragraph_of_a_comment(self):
        self.assertEqual(["line 1: a paragraph of 6 sentences"], faults_of_source("//! One. Two. Three.\n//! Four. Five. Six.\n"))
        self.assertEqual([], faults_of_source("//! One. Two. Three.\n//!\n//! Four. Five. Six.\n"))

    def test_long_line_of_a_comment(self):
        self.assertEqual(["line 2: 101 columns"], faults_of_source("fn one();\n    /// " + "a" * 93 + "\n"))
        self.assertEqual([], faults_of_source("    /// " + "a" * 92 + "\nfn " + "a" * 100 + "();\n"))

    def test_heavy_words_of_a_comment(self):
        self.assertEqual(1, len(faults_of_source("/// Lines such\n/// that all are read.\n")))

    def test_code_is_left_alone(self):
        self.assertEqual([], faults_of_source("let text = \"// " + "word " * 40 + "\";\n/// ```\n/// " + "word " * 15 + "\n/// " + "word " * 16 + "\n/// ```\n"))


if __name__ == "__main__":
    unittest.main()
