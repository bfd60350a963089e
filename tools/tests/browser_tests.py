"""What tests in the browser share."""
import json
import subprocess
import sys
from pathlib import Path

TOOLS = Path(__file__).resolve().parents[1]
DATA = TOOLS / "tests/data"


def tool(name, *words):
    """A tool's run, which has to end well: what it wrote to standard output and to standard error."""
    ended = subprocess.run([sys.executable, str(TOOLS / name), *map(str, words)], capture_output=True, text=True, check=False)
    if ended.returncode:
        raise AssertionError(f"{name} ended with {ended.returncode}: {ended.stderr}")
    return ended.stdout, ended.stderr


def read_json(path):
    """The JSON of a file."""
    return json.loads(Path(path).read_text())
