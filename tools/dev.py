#!/usr/bin/env python3
"""tools/dev.py CRATE [--allow-holes]: `rt check` of one crate in few lines, at the repository's root.

Prints errors, functions that are not proved, and the verdict; ends with rt's status. Writes each proof file that the check
prints and that is not there yet. target/last.txt has the whole output. W=NUMBER in the environment says where a line is
cut, at 700 if not."""
import os
import re
import subprocess
import sys
import time

BEGINNINGS = ('fn ', 'logic=', 'rt:')
PRINTED = re.compile(r'help: write (\S+) with these lines')
PROVED = re.compile(r'(fn|struct|enum) .*: proved|rt: .*\(unchanged since it was last proved\)')


def checked(crate, words):
    run = subprocess.run(['rt', 'check', *words], cwd=f'crates/{crate}', capture_output=True, text=True)
    os.makedirs('target', exist_ok=True)
    with open('target/last.txt', 'w') as last:
        last.write(run.stdout + run.stderr)
    return run.returncode, (run.stdout + run.stderr).split('\n')


def parted(lines):
    """The proof files that are printed, by their paths, and the other lines."""
    files, others, path = {}, [], None
    for line in lines:
        begins = PRINTED.match(line)
        if begins:
            path = begins[1]
            files[path] = []
        elif path and (line == '' or line.startswith('    ')):
            files[path].append(line[4:])
        else:
            path = None
            others.append(line)
    return files, others


def write(path, lines):
    os.makedirs(os.path.dirname(path), exist_ok=True)
    with open(path, 'w') as file:
        file.write('\n'.join(lines).strip('\n') + '\n')
    print('wrote', path)


def main(crate, *words):
    begun = time.time()
    status, lines = checked(crate, words)
    files, lines = parted(lines)
    width = int(os.environ.get('W', '700'))
    for line in lines:
        told = 'error' in line or line.startswith(BEGINNINGS) or '--allow-holes' in words
        if told and not PROVED.match(line):
            print(line[:width])
    print(f'{time.time() - begun:.1f} s')
    for path, skeleton in files.items():
        path = os.path.normpath(f'crates/{crate}/{path}')
        if not os.path.exists(path):
            write(path, skeleton)
    return status


if len(sys.argv) < 2 or '--help' in sys.argv:
    sys.exit(__doc__)
sys.exit(main(*sys.argv[1:]))
