#!/usr/bin/env python3
"""tools/edit.py CRATE NAME..: tries must-fail edits of a crate one by one with `rt check`, and prints the first error of each.

`rt must-fail CRATE` tries those of all that the crate rests on, too. The crate has to be proved without them. Each file is put
back as it was. Ends with status 1 where an edit is not refused. W=NUMBER in the environment says where an error is cut, at 700
if not."""
import os
import re
import signal
import subprocess
import sys

WIDTH = int(os.environ.get('W', '700'))
PART = re.compile(r'^(file|old|new):(?: (.*))?$')


def changes(edit):
    """What the files are that the edit names, and what it makes of them."""
    before, after, path, old = {}, {}, None, None
    parts = filter(None, map(PART.match, edit.read().splitlines()))
    for kind, text in (part.groups(default='') for part in parts):
        if kind == 'file':
            path = text
            if path not in before:
                with open(path) as file:
                    before[path] = after[path] = file.read()
        elif kind == 'old':
            old = text
        else:
            if after[path].count(old) != 1:
                sys.exit(f'{edit.name}: {path} has this {after[path].count(old)} times: {old}')
            after[path] = after[path].replace(old, text)
    return before, after


def store(files):
    for path, text in files.items():
        with open(path, 'w') as file:
            file.write(text)


def checked():
    """Whether the crate is proved, and the first error."""
    run = subprocess.run(['rt', 'check'], capture_output=True, text=True)
    lines = (run.stdout + run.stderr).split('\n')
    first = next((at for at, line in enumerate(lines) if 'error' in line or 'no proof' in line), len(lines))
    return run.returncode == 0, [line[:WIDTH] for line in lines[first:first + 4]]


def refused(crate, name):
    with open(f'must-fail/{name}.edit') as edit:
        before, after = changes(edit)
    try:
        store(after)
        proved, error = checked()
    finally:
        store(before)
    print(f'== {name}: {"NOT REFUSED" if proved else "refused"}', *error, sep='\n')
    return not proved


def main(crate, *names):
    os.chdir(f'crates/{crate}')
    missing = [name for name in names if not os.path.exists(f'must-fail/{name}.edit')]
    if missing:
        sys.exit(f'crates/{crate}/must-fail has no {missing}')
    proved, error = checked()
    if not proved:
        sys.exit('\n'.join([f'{crate} is not proved as it is:', *error]))
    return all([refused(crate, name) for name in names])


if len(sys.argv) < 3 or not os.path.isdir(f'crates/{sys.argv[1]}'):
    sys.exit(__doc__)
signal.signal(signal.SIGTERM, lambda *_: sys.exit(1))
sys.exit(0 if main(*sys.argv[1:]) else 1)
