"""What `./bushingowl`, `./owl` and the Rust crate (its example `convert`) say of a file."""
import csv
import json
import os
import re
import subprocess
import tempfile
from pathlib import Path

ROOT = Path(__file__).resolve().parent.parent.parent
# What ./bushingowl takes at most.
BENCH_LIMIT = 65536
KINDS = ['Rx', 'Tx', 'Rx RTR', 'Tx RTR', 'Warng', 'Error']


class Said:
    """All that is said of a file, and the outputs that are made of it, by what the page calls them."""

    def __init__(self, path):
        self.path = path
        self.form = form_of(path)
        self.is_ascii = ['--ascii'] if self.form == 'ascii' else []
        self.check = json.loads(owl('check', '--json', *self.is_ascii, str(path)).stdout.splitlines()[0])
        self.accepted = self.check['status'] == 'done'
        self.bench = bench(path) if self.form == 'trace' and path.stat().st_size <= BENCH_LIMIT else None
        self.crate = run([str(ROOT / 'target/web/cargo/release/examples/convert'), *self.is_ascii, str(path)]).stdout
        if self.accepted:
            self.csv = owl('show', '--csv', *self.is_ascii, str(path)).stdout
            self.head = owl('show', *self.is_ascii, str(path)).stdout.split(b'\n', 1)[0].decode()
        else:
            self.explained = owl('explain', *self.is_ascii, str(path)).stdout.decode().split('\n')

    def rows(self):
        return list(csv.DictReader(self.csv.decode().splitlines()))

    def kinds(self):
        counted = [row['kind'] for row in self.rows()]
        return {kind: counted.count(kind) for kind in KINDS}

    def outputs(self):
        """Name and bytes of each file that can be made, or None where it is refused. What owl does not make is named like what it makes."""
        if self.form == 'ascii':
            stem = re.sub(r'\.(asc|txt)$', '', self.path.name, flags=re.I)
            return {'ascii': (f'{stem}-house.asc', self.crate), 'house': made('back', self.path), 'csv': (f'{stem}.csv', self.csv)}
        stem = re.sub(r'\.trc$', '', self.path.name, flags=re.I)
        house = made('write', '--version', self.check['version'], self.path)
        return {'ascii': made('convert', self.path), 'house': house, 'csv': (f'{stem}.csv', self.csv)}

    def counted(self, what):
        """What is said of a file that was made."""
        kinds, all_rows = self.kinds(), len(self.rows())
        lines = kinds['Rx'] + kinds['Tx']
        if what == 'ascii':
            return f'{lines:,} line{"" if lines == 1 else "s"}, {all_rows - lines:,} left out'
        return f'{all_rows:,} row{"" if all_rows == 1 else "s"}'

    def why(self):
        return self.named('', 2)

    def expected(self):
        return self.named('expected: ', 1)

    def remedy(self):
        return self.named('what to do: ', 0)

    def named(self, name, lines_behind):
        """What stands in the last lines of an explanation. Where there is no line to show, there is neither a reason nor what was expected."""
        lines = [line for line in self.explained if line]
        has_fault = any(line.startswith('expected: ') for line in lines)
        if lines_behind > 0 and not has_fault:
            return ''
        line = lines[-1 - lines_behind]
        assert line.startswith(name), lines
        return line[len(name):]


def form_of(path):
    """Trace or lines of ASCII, as web/README.md says the page takes it."""
    ending = path.name.lower()[-4:]
    if ending in ('.trc', '.asc'):
        return 'ascii' if ending == '.asc' else 'trace'
    return form_by_byte(path)


def form_by_byte(path):
    with path.open('rb') as file:
        return 'ascii' if file.read(1).isdigit() else 'trace'


def run(words, **more):
    return subprocess.run(words, capture_output=True, **more)


def owl(*words):
    return run([str(ROOT / 'owl'), *words])


def bench(path):
    with path.open('rb') as file:
        return run([str(ROOT / 'bushingowl')], stdin=file).stdout


def made(command, *words):
    """Name and bytes of the file that owl makes, or None where it makes none."""
    with tempfile.TemporaryDirectory() as folder:
        owl(command, *map(str, words), '-o', folder)
        files = os.listdir(folder)
        return (files[0], Path(folder, files[0]).read_bytes()) if files else None


def build_programs():
    """The programs are built once, before anything is compared."""
    library = run([str(ROOT / 'rust/library')], check=True).stdout.decode().rstrip('\n')
    environment = {**os.environ, 'BUSHINGOWL_LIB': library}
    target = ROOT / 'target/web/cargo'
    run(['cargo', 'build', '--quiet', '--release', '--examples', '--manifest-path', str(ROOT / 'rust/Cargo.toml'), '--target-dir', str(target)],
        env=environment, check=True)
    assert owl('--version').returncode == 0
    assert bench(ROOT / 'samples/small.trc') == (ROOT / 'samples/small.txt').read_bytes()
