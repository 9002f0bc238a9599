"""Runs the lines after `$` of the pages, and compares what they print with what the pages say.

A block is a run of lines that are indented by four blanks. A command is a line `$ ..` of a block and
the lines that go on from it: after a backslash, after `> `, or up to the end of a here-document. What
follows, up to the next command, is what it prints on its outputs. There `...` stands for any text of a
line, and a line of `...` alone for any lines. The status is 0, or else what a comment behind the
command says: `# status 1`. The commands of a page run in one shell, in a folder that is empty first.

Comments of the source, of which readers see nothing, tell of the block that follows:

    <!-- not run: WHY -->    nothing of it is run
    <!-- needs: NAME -->     it is run where this is there: a command, or one of the words of `pages`
    <!-- file: NAME -->      the block is the text of a file, which is written before the next command
"""

import os
import re
import subprocess
import sys
import tempfile
from pathlib import Path
from shutil import which

MARK = re.compile(r"<!-- (not run|needs|file): (.*) -->$")
HERE = re.compile(r"<<-?\s*['\"]?([A-Za-z_]+)['\"]?")
STATUS = re.compile(r"# status (\d+)$")
SECONDS = 900


class Step:
    """A command with what it prints, or the text of a file."""

    def __init__(self, line, text, file=None):
        self.line, self.text, self.file = line, text, file
        self.printed = []

    def status(self):
        found = STATUS.search(self.text)
        return int(found.group(1)) if found else 0


def blocks(text):
    """The blocks of a page: the number of the first line, the mark before it, the lines."""
    mark, found, fenced = None, [], False
    for number, line in enumerate(text.splitlines(), 1):
        if line.startswith("```"):
            fenced = not fenced
        elif not fenced and line.startswith("    "):
            if not found:
                found = [number, mark, []]
            found[2].append(line[4:])
            continue
        if found and not line and not fenced:
            found[2].append("")
            continue
        if found:
            yield found
            found, mark = [], None
        if line:
            marked = MARK.match(line)
            mark = marked.groups() if marked else None
    if found:
        yield found


def steps(first, lines):
    """The commands of a block."""
    made, end = [], None
    for number, line in enumerate(lines, first):
        last = made[-1] if made else None
        if end:
            last.text += "\n" + line
            end = None if line == end else end
        elif line.startswith("$ "):
            made.append(Step(number, line[2:]))
            here = HERE.search(line)
            end = here.group(1) if here else None
        elif last and not last.printed and last.text.endswith("\\"):
            last.text += "\n" + line
        elif last and not last.printed and line.startswith("> "):
            last.text += "\n" + line[2:]
        elif last:
            last.printed.append(line)
    return made


class Page:
    """What a page has to run, and what it leaves out."""

    def __init__(self, path, has):
        self.steps, self.needs, self.unrun = [], {}, []
        for first, mark, lines in blocks(path.read_text()):
            while lines and not lines[-1]:
                lines.pop()
            kind, word = mark or (None, None)
            commands = steps(first, lines)
            if kind == "file":
                self.steps.append(Step(first, "\n".join(lines) + "\n", word))
            elif kind == "not run":
                self.unrun += [word] * len(commands)
            elif kind == "needs" and word not in has and not which(word):
                self.needs[word] = self.needs.get(word, 0) + len(commands)
            else:
                self.steps += commands


def fits(wanted, printed):
    """Whether what is printed is what the page says, empty lines at its end aside."""
    lines = [
        "(?:.*\n)*" if line == "..." else re.escape(line).replace(r"\.\.\.", ".*") + "\n"
        for line in "\n".join(wanted).rstrip("\n").splitlines()
    ]
    text = printed.rstrip("\n")
    return re.fullmatch("".join(lines), text + "\n" if text else "")


def script_of(page, kept):
    """A script for the shell that runs a page's commands, each from a file of its own."""
    lines = []
    for number, step in enumerate(page.steps):
        place = kept / str(number)
        place.write_text(step.text if step.file else step.text + "\n")
        if step.file:
            lines.append(f"cp {place} '{step.file}'")
        else:
            lines.append(f". {place} >{place}.printed 2>&1; echo $? >{place}.status")
    return "\n".join(lines) + "\n"


def faults(page, kept):
    """What isn't as the page says, by the lines of the page."""
    for number, step in enumerate(page.steps):
        if step.file:
            continue
        at = f"line {step.line}: {step.text.splitlines()[0]}"
        place = kept / f"{number}.status"
        if not place.exists():
            yield f"{at}\n  wasn't reached"
            return
        printed = (kept / f"{number}.printed").read_text(errors="replace")
        status = int(place.read_text())
        if status != step.status():
            yield f"{at}\n  status {status}, printed: {printed}"
        elif not fits(step.printed, printed):
            yield f"{at}\n  printed: {printed}\n  wanted: " + "\n".join(step.printed)


def run(page):
    """Runs a page's commands in a new folder; what went wrong."""
    with tempfile.TemporaryDirectory() as folder, tempfile.TemporaryDirectory() as kept:
        kept = Path(kept)
        script = kept / "script"
        script.write_text(script_of(page, kept))
        environment = dict(os.environ, HOME=folder, LC_ALL="C")
        try:
            subprocess.run(
                ["sh", str(script)],
                cwd=folder,
                env=environment,
                stdin=subprocess.DEVNULL,
                timeout=SECONDS,
                check=False,
            )
        except subprocess.TimeoutExpired:
            pass
        return list(faults(page, kept))


def counted(number, what):
    return f"{number} {what}" if number == 1 else f"{number} {what}s"


def main(repository, has, *names):
    top = Path(repository)
    paths = [top / name for name in names] or [
        top / "README.md",
        *sorted(top.glob("docs/*.md")),
        *sorted(top.glob("docs/tutorials/*.md")),
    ]
    lines = left = failed = pages = 0
    for path in paths:
        page = Page(path, has.split(":"))
        commands = sum(1 for step in page.steps if not step.file)
        unrun = len(page.unrun) + sum(page.needs.values())
        if commands + unrun == 0:
            continue
        wrong = run(page) if commands else []
        said = f"{path.relative_to(top)}: {counted(commands, 'line')} run"
        reasons = [f"{number} for want of {name}" for name, number in page.needs.items()]
        reasons += [f"{page.unrun.count(why)}: {why}" for why in dict.fromkeys(page.unrun)]
        if reasons:
            said += f", {unrun} not ({'; '.join(reasons)})"
        print(said + (f", {len(wrong)} WRONG" if wrong else ""))
        for fault in wrong:
            print(f"  {fault}")
        pages, lines, left, failed = pages + 1, lines + commands, left + unrun, failed + len(wrong)
    print(f"{counted(pages, 'page')}, {counted(lines, 'line')} run, {left} not, {failed} wrong")
    return 1 if failed or lines == 0 else 0


if __name__ == "__main__":
    sys.exit(main(*sys.argv[1:]))
