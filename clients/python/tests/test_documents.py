"""The examples print what is said: those of README.md, and examples/clinic.py."""
import contextlib
import io
import re
import subprocess
import sys
from pathlib import Path

from running import CLIENT, TOP, ServerCase


class Documents(ServerCase):
    def test_the_examples_of_the_readme(self) -> None:
        text = (CLIENT / "README.md").read_text(encoding="utf-8")
        examples = re.findall(r"^```python\n(.*?)^```\n\n```text\n(.*?)^```$", text, re.MULTILINE | re.DOTALL)
        self.assertEqual((len(examples), text.count("```python")), (7, 7))
        for number, (example, said) in enumerate(examples, 1):
            printed = io.StringIO()
            with self.subTest(example=number), contextlib.redirect_stdout(printed):
                exec(compile(example.replace("9997", str(self.port)), f"README.md, example {number}", "exec"), {})
            self.assertEqual(printed.getvalue(), said, f"example {number}")

    def test_the_clinic_twice(self) -> None:
        wanted = Path(TOP, "examples/clinic.py.out").read_text(encoding="utf-8")
        for _ in range(2):
            words = [sys.executable, str(TOP / "examples/clinic.py"), str(self.port)]
            done = subprocess.run(words, capture_output=True, text=True, timeout=30)
            self.assertEqual((done.stdout, done.stderr, done.returncode), (wanted, "", 0))
