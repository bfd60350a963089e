"""Running the program: the one that this checkout built, or the one that the variable AX_TOOL names."""
import os
import subprocess
from pathlib import Path

PROGRAM = Path(os.environ.get("AX_TOOL") or Path(__file__).resolve().parents[2] / "crates/ax_tool/out/ax_tool")
OK, USAGE, REFUSED = 0, 2, 3


class NoProgram(Exception):
    """The program isn't there, or ended badly."""


def run(script, command="replay", program=PROGRAM):
    """Status and text that the program gives for a script's bytes."""
    if not Path(program).exists():
        raise NoProgram(f"{program} isn't there: build it as README.md tells, or name one by --program")
    ended = subprocess.run([str(program), command], input=script, stdout=subprocess.PIPE, check=False)
    return ended.returncode, ended.stdout.decode()


def text_of(script, command="replay", program=PROGRAM):
    """The text of a run that ended well."""
    status, text = run(script, command, program)
    if status != OK:
        raise NoProgram(f"{Path(program).name} {command} ended with status {status}: {text.strip() or 'no text'}")
    return text
