"""The README's examples run as they stand."""

import contextlib
import io
import os
import re
import tempfile
import unittest
from pathlib import Path

README = Path(__file__).resolve().parents[1] / "README.md"

SAID = """\
Zug [('Version', 4), ('Folders', ['C:\\\\A', 'C:\\\\B'])]
(4, 4)
"""


class ReadmeTest(unittest.TestCase):
    def test_examples(self):
        examples = re.findall(r"```python\n(.*?)```", README.read_text(encoding="utf-8"), re.DOTALL)
        said = io.StringIO()
        before = os.getcwd()
        with tempfile.TemporaryDirectory() as folder:
            os.chdir(folder)
            try:
                with contextlib.redirect_stdout(said):
                    for example in examples:
                        exec(compile(example, str(README), "exec"), {})
            finally:
                os.chdir(before)
        self.assertEqual(said.getvalue(), SAID)


if __name__ == "__main__":
    unittest.main()
