"""Runs docs/HOST.md, from the repository's root: host_page.py ARCHIVE DIRECTORY. The last line is 'N passed, M failed'.

The files that the page gives are written, and the commands of its sections on languages run one after the other, as on an x86-64 machine
(.ci/x86-64), in a directory that is made to look like the root. The other commands make the archive or are whole runs of tests: of those it is
only seen that the files that they name are there.
"""

import os
import re
import subprocess
import sys
from pathlib import Path

LANGUAGES = ["C", "Rust", "Python"]
SECONDS = 120
AS_ON_X86_64 = Path(".ci/x86-64").resolve()

# What a section has, in order: files in fences, commands, and what the last command printed.
PIECE = re.compile(
    r"In `(?P<name>[\w.]+)`:\n\n```\w+\n(?P<file>(?:[^`].*\n|\n)+)```$"
    r"|^    (?P<command>\S.*)$"
    r"|It prints `(?P<prints>[^`]+)`", re.MULTILINE)

NAMED_FILE = re.compile(r"(?:^    |`)((?:bench|examples|include|tests)/[\w./]+)", re.MULTILINE)


class Page:
    def __init__(self, text, directory):
        self.sections = dict(re.findall(r"^## (.*)\n((?:(?!## ).*\n)*)", text, re.MULTILINE))
        self.text = text
        self.directory = directory
        self.counts = {True: 0, False: 0}

    def count(self, passed, what):
        self.counts[passed] += 1
        print(f"{'ok' if passed else 'FAILED':8} {what}")

    def ends_well(self, command):
        """Runs a command; returns what it printed."""
        environment = dict(os.environ, PYTHONDONTWRITEBYTECODE="1")
        run = subprocess.run(f"{AS_ON_X86_64} {command}", shell=True, cwd=self.directory, env=environment, text=True, timeout=SECONDS,
                             stdout=subprocess.PIPE, stderr=subprocess.STDOUT)
        if run.returncode != 0:
            print(run.stdout)
        self.count(run.returncode == 0, command)
        return run.stdout

    def run_section(self, title):
        text = self.sections.get(title, "")
        printed, files, commands = "", 0, 0
        for piece in PIECE.finditer(text):
            if piece["file"]:
                (self.directory / piece["name"]).write_text(piece["file"])
                files += 1
            elif piece["command"]:
                printed = self.ends_well(piece["command"])
                commands += 1
            else:
                self.count(printed == piece["prints"] + "\n", f"it prints {piece['prints']!r}")
        self.count(commands > 0 and text.count("```") == 2 * files, f"section {title}: {commands} commands, and every fence is a file")

    def names_files(self):
        missing = sorted(name for name in set(NAMED_FILE.findall(self.text)) if not Path(name).exists())
        self.count(not missing, f"the files that it names are there{': not ' if missing else ''}{', '.join(missing)}")


def make_root(directory, archive):
    """All that lies at the root is there by its name, so that a command that collides with it fails; the archive is where it would be made."""
    (directory / "target/staticlib").mkdir(parents=True)
    (directory / "target/staticlib/libchirpsteeple.a").symlink_to(archive.resolve())
    for entry in Path.cwd().iterdir():
        if entry.name != "target" and not entry.name.startswith("."):
            (directory / entry.name).symlink_to(entry)


def main(archive, directory):
    make_root(directory, archive)
    page = Page(Path("docs/HOST.md").read_text(), directory)
    page.names_files()
    for title in LANGUAGES:
        page.run_section(title)
    print(f"{page.counts[True]} passed, {page.counts[False]} failed")
    return 1 if page.counts[False] else 0


if __name__ == "__main__":
    sys.exit(main(Path(sys.argv[1]), Path(sys.argv[2])))
