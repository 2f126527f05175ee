"""The programs that are proved and built, as `rt ci` and `rt run` leave them in crates/NAME/out, for the scripts that run them."""
import os
import subprocess
import sys

TOP = os.path.join(os.path.dirname(os.path.abspath(__file__)), "..")


def path_of(name, top=TOP):
    """The path of a program in a checkout; if it isn't built, the script ends."""
    path = os.path.join(top, "crates", name, "out", name)
    if not os.access(path, os.X_OK):
        sys.exit(f"{os.path.relpath(sys.argv[0], TOP)}: no program {path}: `rt ci` and `rt run` build it")
    return path


def answers(name, lines):
    """What a program writes for lines, each of which it answers by one line; if it doesn't, the script ends."""
    done = subprocess.run([path_of(name)], input="".join(line + "\n" for line in lines), capture_output=True, text=True, check=True)
    found = done.stdout.split("\n")[:-1]
    if len(found) != len(lines):
        sys.exit(f"{os.path.relpath(sys.argv[0], TOP)}: {len(found)} answers of {name} to {len(lines)} lines")
    return found
