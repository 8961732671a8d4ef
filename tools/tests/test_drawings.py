"""The drawings of the pages are Mermaid that any version of it draws: of its grammar they use this little part, and none of its keywords as a name."""
import pathlib
import re
import sys
import unittest

sys.path.insert(0, str(pathlib.Path(__file__).resolve().parent))
from rig import TOOLS  # pylint: disable=wrong-import-position

TOP = TOOLS.parent
DRAWING = re.compile(r"(?ms)^```mermaid\n(.*?)^```$")
NAME = r"(?!(?:end|graph|flowchart|subgraph|style|linkStyle|class|classDef|click|default|direction|href|call)\b)[A-Za-z][A-Za-z_]*"
NODE = rf'{NAME}(?:\["[^"#;]+"\])?'
NODES = rf"{NODE}(?: & {NODE})*"
LINK = r'(?:-->|-- "[^"#;]+" -->)'
# A flowchart has several statements a line, parted or ended by semicolons.
STATEMENT = rf"{NODES}(?: {LINK} {NODES})*"
FLOWCHART = re.compile(rf"flowchart (?:TD|LR)\n(?: +{STATEMENT}(?:; {STATEMENT})*;?\n)+")
SEQUENCE = re.compile(rf"sequenceDiagram\n(?: +{NAME}--?>>{NAME}: [^#;\n]+\n)+")


def is_drawn(text):
    return bool(FLOWCHART.fullmatch(text) or SEQUENCE.fullmatch(text))


class Drawings(unittest.TestCase):
    def test_pages(self):
        for path in [TOP / "README.md", TOP / "CONTRIBUTING.md", *sorted(TOP.glob("docs/*.md"))]:
            for number, drawing in enumerate(DRAWING.findall(path.read_text(encoding="utf-8")), 1):
                with self.subTest(page=path.name, number=number):
                    self.assertTrue(is_drawn(drawing), drawing)

    def test_there_are_some(self):
        self.assertGreaterEqual(len(DRAWING.findall((TOP / "docs" / "ARCHITECTURE.md").read_text(encoding="utf-8"))), 4)

    def test_faults_are_found(self):
        self.assertTrue(is_drawn('flowchart LR\n    a["One: a<br/>b"] --> b & c; c -- "why" --> a;\n    a\n'))
        self.assertTrue(is_drawn("sequenceDiagram\n    a->>b: A::b, then c\n    b-->>a: d\n"))
        for body in ("a --> end", 'a["it"s"] --> b', "a[(it)] --> b", "a -> b", "a --> b, c", 'a["#1"]', 'a -- "x;y" --> b'):
            self.assertFalse(is_drawn(f"flowchart LR\n    {body}\n"), body)
        for body in ("a->b: it", "a->>b", "a->>b: one; two", "end->>b: it"):
            self.assertFalse(is_drawn(f"sequenceDiagram\n    {body}\n"), body)


if __name__ == "__main__":
    unittest.main()
