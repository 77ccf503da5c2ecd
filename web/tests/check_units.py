"""The page's script without a page: run by node, and held to what is counted again."""
import subprocess

from said import ROOT

# Each script, and the side of the page that it tries.
SCRIPTS = {'recount.js': 'work', 'shown.js': 'view'}


def cases(room):
    for script, side in SCRIPTS.items():
        yield script, lambda page, script=script, side=side: holds(script, side)


def holds(script, side):
    path = subprocess.run([str(ROOT / 'web/building/script'), script, side], capture_output=True, text=True, check=True).stdout.strip()
    done = subprocess.run(['node', path], capture_output=True, text=True)
    assert done.returncode == 0, done.stderr[:2000]
    print(done.stdout, end='')
