#!/usr/bin/env python3
"""Says whether the table of m2v_test_cases is what these scripts print.

    bench/cases/compare.py [NAME ..]

A line of stars in the table names the script that prints what stands from there to the next one. Each is run, or those
that are named alone (`pictures`, `verdicts` ..; `encoded` takes a minute), and its output is compared. The status is
1 where one prints something else."""

import subprocess
import sys
from pathlib import Path

from table_lines import TABLE

STARS, TOP = '# ***** what follows is what ', TABLE.parent.parent.parent


def parts():
    """Each script with the lines of the table that it prints."""
    script, lines = None, []
    for line in TABLE.read_text().splitlines():
        if line.startswith(STARS):
            if script:
                yield script, lines
            script, lines = line[len(STARS):].split()[0], []
        elif script:
            lines.append(line)
    yield script, lines


def main():
    wrong = 0
    for script, lines in parts():
        if sys.argv[1:] and Path(script).stem not in sys.argv[1:]:
            continue
        run = subprocess.run([sys.executable, TOP / script], stdout=subprocess.PIPE, text=True, check=True)
        printed = [line for line in run.stdout.splitlines() if not line.startswith(STARS)]
        same = '\n'.join(printed).strip() == '\n'.join(lines).strip()
        wrong += not same
        print(script, 'prints what stands in the table' if same else 'prints something else')
    sys.exit(wrong > 0)


if __name__ == '__main__':
    main()
