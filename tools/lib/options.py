"""The command line that all scripts share: a description for --help, and the option --program."""
import argparse
import os

ROOT = os.path.dirname(os.path.dirname(os.path.dirname(os.path.abspath(__file__))))


def parser(text):
    """A parser whose --help begins with the text, which says what the script does."""
    line = argparse.ArgumentParser(description=text)
    line.add_argument("--program", metavar="FILE", default=os.path.join(ROOT, "bin", "lvl"),
                      help="the program to run (default: bin/lvl)")
    return line


def add_older(line):
    """The option for a program that is older than --ignore and hints."""
    line.add_argument("--plain", action="store_true", help="the program knows neither --ignore nor hints")


def parsed(line):
    """The options of the command line; ends the script if the program is missing."""
    options = line.parse_args()
    if not os.path.exists(options.program):
        line.error("%s is missing: run make first, or name a program with --program" % options.program)
    return options
