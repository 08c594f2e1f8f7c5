"""The program of rows and what it is run on, for tools/rows and for the tools that run it on other rows."""
import os
import subprocess
import sys

ROOT = os.path.dirname(os.path.dirname(os.path.dirname(os.path.realpath(__file__))))
FOLDER = f"{ROOT}/rows"
DATA, STORED = f"{FOLDER}/data", f"{FOLDER}/stdout"


def files():
    """The files of rows, in the order in which they are read."""
    with open(f"{FOLDER}/args", encoding="utf-8") as it:
        return it.read().split()


def path(tool):
    """The path of the program, which is compiled first if a source changed."""
    ran = subprocess.run([f"{ROOT}/tools/build_program", "--rows", tool], stdin=subprocess.DEVNULL, stdout=subprocess.PIPE, text=True)
    if ran.returncode:
        sys.exit(ran.returncode)
    return ran.stdout.rstrip("\n")
