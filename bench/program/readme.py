#!/usr/bin/env python3
"""Runs the examples of README.md by the built program, so that none of them drifts from what it prints.

    bench/program/readme.py PROGRAM [--fill]

An example is a command whose next lines begin with `# `: these are what it prints. They are run in their order, with the
clip that they work on, in a folder that is removed afterwards. Each that prints something else is told, and the status is
1; with --fill README.md is given what was printed. What stands there without such lines, the pipes of other programs, is run
too where these are installed, and must end with status 0; where they aren't, what reads their files is left out too."""

import re
import shutil
import subprocess
import sys
import tempfile
from pathlib import Path

TOP = next(folder for folder in Path(__file__).resolve().parents if (folder / 'README.md').exists())
INDENT, SAID, CLIP = '    ', '    # ', '    python3 '
# what an example without printed lines may begin with; others, as the installation of a package, aren't run
OTHERS = ('./puckerledge ', 'ffmpeg ', 'mplex ', 'if ')


def is_whole(text):
    return subprocess.run(['bash', '-n', '-c', text], stderr=subprocess.DEVNULL, check=False).returncode == 0


def examples(lines):
    """Each example: the place of its command, that of the lines that it prints, and where these end."""
    at = 0
    while at < len(lines):
        if lines[at].startswith(INDENT) and not lines[at].startswith(SAID):
            after = at + 1
            while not is_whole('\n'.join(lines[at:after])) and lines[after].startswith(INDENT):
                after += 1
            end = after
            while end < len(lines) and lines[end].startswith(SAID):
                end += 1
            if end > after or lines[at].startswith(CLIP) or lines[at].strip().startswith(OTHERS):
                yield at, after, end
            at = end
        else:
            at += 1


def is_there(command):
    """Whether the programs that a command calls are installed."""
    return all(shutil.which(name) for name in ('ffmpeg', 'mplex') if name + ' ' in command)


def reads_nothing(command, folder):
    """Whether a file that a command reads isn't there."""
    return not all((Path(folder) / name).exists() for name in re.findall(r' < (\S+)', command))


def main():
    readme = TOP / 'README.md'
    lines = readme.read_text().splitlines()
    filled, done, wrong, left_out = [], 0, 0, 0
    with tempfile.TemporaryDirectory() as folder:
        (Path(folder) / 'puckerledge').symlink_to(Path(sys.argv[1]).resolve())
        for name in ('bench', 'crates'):
            (Path(folder) / name).symlink_to(TOP / name)
        for at, after, end in examples(lines):
            command = '\n'.join(line[len(INDENT):] for line in lines[at:after])
            if not is_there(command) or (left_out and reads_nothing(command, folder)):
                left_out += 1
                continue
            run = subprocess.run(['bash', '-c', 'set -o pipefail\n' + command], cwd=folder, stdin=subprocess.DEVNULL,
                                 stdout=subprocess.PIPE, stderr=subprocess.STDOUT, text=True, check=False)
            printed = [SAID + line for line in run.stdout.splitlines()]
            if end > after:
                filled += lines[done:after] + printed
                done = end
            if (printed != lines[after:end]) if end > after else run.returncode:
                wrong += 1
                print(command, *printed, 'status %d' % run.returncode, sep='\n')
    if '--fill' in sys.argv[2:]:
        readme.write_text('\n'.join(filled + lines[done:]) + '\n')
    if left_out:
        print('%d examples want what isn\'t installed' % left_out)
    print('%d examples print something else, or fail' % wrong)
    sys.exit(wrong > 0 and '--fill' not in sys.argv[2:])


if __name__ == '__main__':
    main()
