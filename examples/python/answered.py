"""Which commands and options of `slh` the stored run of crates/slh_answers lacks a yes or a no of.

    answered.py    a line for each that lacks; the status is 1 where one does

A yes is a line of it with status 0, a no one with another status. The commands and their options are read from
the tables of words, by docs/draw_words.
"""

import sys
from importlib.machinery import SourceFileLoader
from importlib.util import module_from_spec, spec_from_loader
from pathlib import Path

TOP = Path(__file__).resolve().parent.parent.parent


def read_words():
    loader = SourceFileLoader("draw_words", str(TOP / "docs/draw_words"))
    module = module_from_spec(spec_from_loader("draw_words", loader))
    sys.modules["draw_words"] = module
    sys.dont_write_bytecode = True
    loader.exec_module(module)
    return module.read_words()


def answers():
    """The words of each line of `slh`, and whether its status is 0."""
    text = (TOP / "crates/slh_answers/stdout").read_text()
    for answer in ("\n" + text).split("\n$ ")[1:]:
        line, *told = answer.split("\n# ")[0].strip("\n").split("\n")
        words = line.split()
        if words[:1] == ["slh"]:
            yield tuple(words[1:]), told[-1] == "0"


def lacking(command, answered):
    """What the lines of a command lack."""
    path = tuple(command.path)
    own = [(words, yes) for words, yes in answered if words[: len(path)] == path]
    for option in (None, *(word.name for word in command.options)):
        name = f"slh {command.name}" + (f" --{option}" if option else "")
        seen = {yes for words, yes in own if not option or f"--{option}" in words}
        for yes in {True, False} - seen:
            yield f"{name}: no line {'with' if yes else 'without'} status 0"


def main():
    answered = list(answers())
    commands = read_words().commands
    lacks = [line for command in commands for line in lacking(command, answered)]
    print(*lacks, sep="\n", end="\n" if lacks else "")
    print(f"{len(answered)} lines of {len(commands)} commands: {len(lacks)} lacking")
    return 1 if lacks else 0


if __name__ == "__main__":
    sys.exit(main())
