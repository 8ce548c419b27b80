"""The command line of a tool that looks at an application and prints lines, or one object of JSON."""
import argparse
import json
import os
import sys

from page.html import line_of
from page.pages import SCRIPT
from page.walk import NoProgram, Refused

FOUND, NO_FOLDER, NO_PROGRAM = 8, 3, 125


def run(name, about, tool):
    """Does what the words ask for. The tool is made of a folder and a program, and has `lines`, `data` and `has_found`."""
    words = argparse.ArgumentParser(prog=name, description=about, allow_abbrev=False)
    words.add_argument('app', metavar='DIR')
    words.add_argument('--json', action='store_true', help='one object of JSON')
    words.add_argument('--lava', metavar='PROGRAM', default=SCRIPT, help='the program that is asked (default: ./lava of this repository)')
    given = words.parse_args()
    if not os.path.isdir(given.app):
        return fail(f'lava: {name}: there is no folder {given.app}', NO_FOLDER)
    try:
        found = tool(given.app, given.lava)
    except Refused as refusal:
        status, said = refusal.args
        return fail(said, status)
    except NoProgram as error:
        return fail(f'lava: {name}: {error}', NO_PROGRAM)
    if given.json:
        print(json.dumps(found.data(), indent=1))
    else:
        for line in found.lines():
            print(line_of(line))
    return FOUND if found.has_found() else 0


def fail(line, status):
    print(line_of(line), file=sys.stderr)
    return status
