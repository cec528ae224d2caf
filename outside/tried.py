"""Tests that are written into a copy of the repository and run there with `rt try --test`, which proves nothing."""
import os
import shutil
import subprocess

ROOT = os.path.dirname(os.path.dirname(os.path.abspath(__file__)))


def copied(folder):
    """Makes a copy of the repository in the folder, without what was made, and returns its path."""
    copy = os.path.join(folder, "copy")
    shutil.copytree(ROOT, copy, ignore=shutil.ignore_patterns("out", ".git", "journal.[01]"))
    subprocess.run(["git", "init", "-q", copy], check=True)
    return copy


def tried_in(place, seconds):
    """Runs the tests of the crate in this folder, and returns the status and what was said."""
    ran = subprocess.run(["rt", "try", "--test", "--seconds", str(seconds)], cwd=place, capture_output=True, text=True)
    return ran.returncode, ran.stdout + ran.stderr


def tried(copy, crate, tests, seconds):
    """Gives a crate of the copy these tests as its module `tests`, runs them, and returns the status and what was said."""
    place = os.path.join(copy, "crates", crate)
    with open(os.path.join(place, "src", "tests.rt"), "w", encoding="utf-8") as file:
        file.write(tests)
    with open(os.path.join(place, "src", "lib.rt"), "r+", encoding="utf-8") as file:
        if "\nmod tests;\n" not in file.read():
            file.write("\n#[cfg(test)]\nmod tests;\n")
    return tried_in(place, seconds)
