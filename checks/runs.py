"""What the checks share that run the program on rows of their own: its runs, and the line that counts what they answered."""
import os
import subprocess

SECONDS = 60


def run(program, *words, folder=None):
    """The program run on words of the command line, in a folder if one is given: its status, and what it wrote as bytes."""
    return subprocess.run([os.path.abspath(program), *words], cwd=folder, capture_output=True, timeout=SECONDS)


def count(what, rows, wrong):
    """Prints how many rows were answered right, and gives the status: 1 where one wasn't."""
    print(f"{rows - wrong} {what} answered right, {wrong} wrong")
    return 1 if wrong else 0
