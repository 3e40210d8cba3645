"""What the scripts of this folder share: the top of the checkout, the crates and what they use, the command rt, scripts as modules, and the
help of plm."""
import importlib.machinery
import importlib.util
import os
import re
import shutil
import subprocess
import sys

TOP = os.path.dirname(os.path.dirname(os.path.abspath(__file__)))


def crates():
    """The libraries that each crate uses, by the names of the crates, in the order of crates.txt."""
    found = {}
    with open(f"{TOP}/crates.txt", encoding="utf-8") as file:
        for line in file:
            name, colon, uses = line.partition("#")[0].partition(":")
            if colon:
                found[name.strip()] = uses.split()
    return found


def loaded(name, path):
    """A program with no `.py` in its name, as a module."""
    loader = importlib.machinery.SourceFileLoader(name, path)
    module = importlib.util.module_from_spec(importlib.util.spec_from_loader(name, loader))
    sys.modules[name] = module
    loader.exec_module(module)
    return module


def script(name):
    """A script of this folder, as a module."""
    return loaded(name, f"{TOP}/tools/{name}")


def rt():
    """The command rt, as a module."""
    command = os.path.realpath(shutil.which("rt") or sys.exit("the command rt is not on PATH"))
    sys.path.insert(0, os.path.dirname(command))
    return loaded("rt_command", command)


class Help:
    """what `--help` prints of the program or of one of its commands: the sentence, the usage, the lists of commands, arguments and options
    as pairs of a form and a line, those of options that each command takes, and the paragraphs after them"""

    LISTS = {'Commands:': 'commands', 'Arguments:': 'arguments', 'Options:': 'options',
             'With each command, before or after its name:': 'shared'}

    def __init__(self, text):
        self.about, self.usage, self.commands, self.arguments, self.options, self.shared, self.rest = '', '', [], [], [], [], []
        for paragraph in text.strip('\n').split('\n\n'):
            self.take(paragraph)

    def take(self, paragraph):
        head, _, lines = paragraph.partition('\n')
        if head in self.LISTS:
            pairs = [re.split(r'\s{2,}', line.strip(), maxsplit=1) for line in lines.split('\n')]
            setattr(self, self.LISTS[head], pairs)
        elif head.startswith('Usage: '):
            self.usage = head.removeprefix('Usage: ')
        elif not self.about:
            self.about = ' '.join(paragraph.split('\n'))
        else:
            self.rest.append(paragraph)


def helps(plm):
    """what `--help` of a program plm prints, and of each of its commands by its name"""
    def of(words):
        return Help(subprocess.run([*plm, *words, '--help'], stdout=subprocess.PIPE, text=True, check=True).stdout)
    whole = of([])
    return whole, {name: of([name]) for name, _ in whole.commands if name != 'help'}
