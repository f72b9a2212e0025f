"""The example writes what it did when it was looked at."""
import subprocess
import sys
import unittest
from pathlib import Path

EXAMPLES = Path(__file__).resolve().parents[1] / "examples"


class ExampleTest(unittest.TestCase):
    def test_example(self):
        done = subprocess.run([sys.executable, EXAMPLES / "parcels.py"], capture_output=True, text=True)
        self.assertEqual((done.returncode, done.stderr), (0, ""))
        self.assertEqual(done.stdout, (EXAMPLES / "parcels.txt").read_text())


if __name__ == "__main__":
    unittest.main()
