"""What the scripts of the bench share that write tables to README.md."""

import datetime
import os
import re
import subprocess

BENCH = os.path.dirname(os.path.abspath(__file__))
PAGE = os.path.join(BENCH, "README.md")
END = "<!-- end of what is written -->\n"


def said(*words):
    """What a program prints, or nothing if it fails."""
    done = subprocess.run(words, stdout=subprocess.PIPE, stderr=subprocess.DEVNULL, text=True)
    return done.stdout.strip() if done.returncode == 0 else ""


def machine(*others):
    """The processor, the compiler, what else was measured, and the date, in one line."""
    processor = re.search(r"^Model name: *(.*)", said("lscpu"), re.M)
    compiler = re.sub(r" \(.*\)", "", said(os.environ.get("CC", "cc"), "--version").split("\n")[0])
    date = datetime.datetime.now(datetime.timezone.utc).strftime("%Y-%m-%d")
    parts = [f"{processor[1] if processor else 'unknown'}, {os.cpu_count()} processors", compiler, ", ".join(filter(None, others)), date]
    return "; ".join(filter(None, parts))


def library(name, package):
    """The name and version of a library, if pkg-config finds it."""
    version = said("pkg-config", "--modversion", package)
    return f"{name} {version}" if version else ""


def table(head, rows):
    """A table of Markdown."""

    def line(cells):
        return "|" + "|".join(cells) + "|\n"

    return line(head) + "|" + "---|" * len(head) + "\n" + "".join(map(line, rows))


def write(script, text):
    """Writes a text to the page, where this script's text stands."""
    begin = f"<!-- written by {script} --page -->\n"
    with open(PAGE, encoding="utf-8") as it:
        page = it.read()
    before, found, rest = page.partition(begin)
    _, ended, behind = rest.partition(END)
    if not found or not ended:
        raise SystemExit(f"{PAGE} has no place for {script}")
    with open(PAGE, "w", encoding="utf-8") as it:
        it.write(f"{before}{begin}\n{text}\n{END}{behind}")
