"""What the tests share: where things are, the built program, and what a test needs."""
import pathlib
import re
import shutil
import subprocess
import sys

ROOT = pathlib.Path(__file__).resolve().parents[2]
PROGRAM = ROOT / "crates/mcsim/out/kept/mcsim"
IMAGES = ["--image-a", "examples/a.img", "--image-b", "examples/b.img"]
WORKED = "--sector 256 --unit 8 --max-sectors 4 --chunk 128 --primary 4 --secondary 3".split()
BOARD = "--sector 4096 --unit 4 --max-sectors 128 --chunk 1024 --primary 118 --secondary 117".split()
MAGIC = bytes.fromhex("77c295f360d2ef7f3552500f2cb67980")


def need(*tools):
    """Ends the test before it begins where a tool is missing, with the names of those that are."""
    missing = [tool for tool in tools if shutil.which(tool) is None]
    if missing:
        sys.exit(f"{pathlib.Path(sys.argv[0]).name}: not installed: {', '.join(missing)}")


def build():
    """Builds the program, or waits for the build that is under way; ends the test where that fails."""
    if subprocess.run([ROOT / "mcsim", "--build"], check=False).returncode:
        sys.exit(70)


def mcsim(*words):
    """What a command prints. It must not be refused."""
    return subprocess.run([PROGRAM, *words], capture_output=True, text=True, check=True, cwd=ROOT).stdout


def each_word(words):
    """A word for each sector, of words that may stand for several."""
    for word in words:
        run, many = re.fullmatch(r"([ab])(\d+)\.\.\1(\d+)", word), re.fullmatch(r"(.+?)x(\d+)", word)
        if run:
            yield from (f"{run[1]}{number}" for number in range(int(run[2]), int(run[3]) + 1))
        else:
            yield from [many[1]] * int(many[2]) if many else [word]
