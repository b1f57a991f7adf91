"""Files, folders and commands, for all steps."""

import hashlib
import os
import shutil
import subprocess


class Problem(Exception):
    """Why there is no package."""


def run(*words, **options):
    """The output of a command, which has to succeed."""
    try:
        done = subprocess.run(words, stdout=subprocess.PIPE, text=True, check=True, **options)
    except FileNotFoundError:
        raise Problem(f"{words[0]} isn't installed") from None
    except subprocess.CalledProcessError as error:
        raise Problem(f"{words[0]} ended with status {error.returncode}") from None
    return done.stdout


def read(path):
    with open(path, encoding="utf-8") as it:
        return it.read()


def read_octets(path):
    with open(path, "rb") as it:
        return it.read()


def write(path, text, mode=0o644):
    os.makedirs(os.path.dirname(path), exist_ok=True)
    with open(path, "w", encoding="utf-8") as it:
        it.write(text)
    os.chmod(path, mode)


def copy(source, path, mode=0o644):
    os.makedirs(os.path.dirname(path), exist_ok=True)
    shutil.copyfile(source, path)
    os.chmod(path, mode)


def copy_tree(source, path):
    """Copies a folder, without what building and testing leave in it."""
    left_out = shutil.ignore_patterns("__pycache__", "target", "Cargo.lock", ".*")
    shutil.copytree(source, path, ignore=left_out, dirs_exist_ok=True)


def walk(folder):
    """The paths below a folder, relative to it and sorted, folders before their contents."""
    found = []
    for at, folders, files in os.walk(folder):
        found += [os.path.relpath(os.path.join(at, name), folder) for name in folders + files]
    return sorted(found)


def is_program(path):
    return bool(os.stat(path).st_mode & 0o100)


def sha256(path):
    return hashlib.sha256(read_octets(path)).hexdigest()
