"""What the pages name is there: each file and heading that a link leads to, and each command with its options."""
import os
import pathlib
import re
import sys
import unittest

sys.path.insert(0, str(pathlib.Path(__file__).resolve().parent))
from rig import TOOLS  # pylint: disable=wrong-import-position

TOP = TOOLS.parent
PAGES = [it for place in (".", "docs", "bench", "examples") for it in sorted((TOP / place).glob("*.md"))]
LINK = re.compile(r"\]\(([^)\s]+)\)")
CODE = re.compile(r"(?ms)^```.*?^```$|`[^`\n]+`|^ {4}.*$")
# A command and its words. Those behind ` -- ` are another program's.
COMMAND = re.compile(r"(?<![\w/.-])((?:tools|bench|docs|examples|\.ci)/[\w./-]*\w)((?: (?!-- )[^\s`|&;<>]+)*)")
OPTION = re.compile(r"(?<!\S)--[a-z][a-z-]*")


def slug(heading):
    """The name by which a forge links to a heading."""
    text = re.sub(r"\[([^\]]*)\]\([^)]*\)", r"\1", heading).replace("`", "").replace("*", "")
    return re.sub(r"[^\w\- ]", "", text.lower()).replace(" ", "-")


def headings(text):
    return {slug(it) for it in re.findall(r"(?m)^#+ (.*)$", re.sub(r"(?ms)^```.*?^```$", "", text))}


def broken(page, text):
    """The links of a page that lead nowhere."""
    for link in LINK.findall(text):
        path, _, heading = link.partition("#")
        to = page.parent / path
        if re.match(r"\w+:", link):
            continue
        if not to.exists() or heading and heading not in headings(to.read_text(encoding="utf-8") if path else text):
            yield link


def source(path):
    """The text that has a command's options: its file, and the module that does it."""
    module = TOP / "python" / "wlframe" / "commands" / f"{path.stem}.py"
    return path.read_text(encoding="utf-8") + (module.read_text(encoding="utf-8") if path.parent.name == "tools" and module.exists() else "")


def unknown(text):
    """The commands and options in the code of a page that aren't there."""
    for code in CODE.findall(text):
        for name, words in COMMAND.findall(code):
            path = TOP / name
            if not path.exists():
                yield name
            elif path.is_file() and os.access(path, os.X_OK):
                yield from (f"{name} {it}" for it in OPTION.findall(words) if not re.search(rf"{it}\b", source(path)))


class Pages(unittest.TestCase):
    def test_links(self):
        for page in PAGES:
            with self.subTest(page.name):
                self.assertEqual([], list(broken(page, page.read_text(encoding="utf-8"))))

    def test_commands(self):
        for page in PAGES:
            with self.subTest(page.name):
                self.assertEqual([], list(unknown(page.read_text(encoding="utf-8"))))

    def test_faults_are_found(self):
        page = TOP / "README.md"
        text = "[a](docs/BRIDGE.md#the-keyboard) [b](docs/BRIDGE.md#no-such) [c](docs/NONE.md) [d](#here) [e](https://a.b/#c)\n# Here\n"
        self.assertEqual(["docs/BRIDGE.md#no-such", "docs/NONE.md"], list(broken(page, text)))
        text = "`tools/run --png a.png -- it --what` and `tools/run --film-it`, tools/none\n\n    bench/none --all\n    docs/levels --write\n"
        self.assertEqual(["tools/run --film-it", "bench/none"], list(unknown(text)))


if __name__ == "__main__":
    unittest.main()
