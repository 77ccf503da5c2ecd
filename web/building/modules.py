"""The modules that are made: the words, the limits and the library's bytes."""
import base64
import json
import re
import subprocess
from pathlib import Path


class Wrong(Exception):
    """What a source may not hold."""


def made_of(root):
    """The folder with the modules that are made, as new as their sources. It proves and compiles the library where that was not done."""
    asked = subprocess.run([str(root / 'web/library')], stdout=subprocess.PIPE, text=True)
    if asked.returncode != 0:
        raise Wrong('there is no library')
    made = root / 'target/web'
    made.mkdir(parents=True, exist_ok=True)
    (made / 'words.js').write_text(words((root / 'words.txt').read_text()))
    (made / 'limits.js').write_text(limits((root / 'include/bushingowl.h').read_text()))
    (made / 'library_bytes.js').write_text(library_bytes(Path(asked.stdout.rstrip('\n')).read_bytes()))
    return made


def words(table):
    """A function for each line of words.txt: its parameter has what is filled in."""
    functions = []
    for number, line in enumerate(table.splitlines(), 1):
        if not line or line.startswith('#'):
            continue
        found = re.fullmatch(r'([a-z]\w*): (.+)', line)
        if not found:
            raise Wrong(f'words.txt, line {number}: no name and words')
        functions.append(word(*found.groups()))
    return ''.join(functions)


def word(name, text):
    filled = list(dict.fromkeys(re.findall(r'\{(\w+)\}', text)))
    pieces = re.split(r'\{(\w+)\}', text)
    told = ' + '.join(json.dumps(piece) if at % 2 == 0 else piece for at, piece in enumerate(pieces) if piece)
    return f'export const {name} = ({"{ " + ", ".join(filled) + " }" if filled else ""}) => {told};\n'


def limits(header):
    """A constant for each number that the header defines."""
    constants = []
    for name, value in re.findall(r'^#define BUSHINGOWL_(\w+) (.+)$', header, re.M):
        plain = value.replace('(uint64_t)', '')
        if not re.fullmatch(r'[\d ()+*<-]+', plain):
            raise Wrong(f'include/bushingowl.h: {name} is no number')
        constants.append(f'export const {name} = {eval(plain)};\n')
    return ''.join(constants)


def library_bytes(wasm):
    """The library's WebAssembly, as letters that a script can hold."""
    letters = base64.b64encode(wasm).decode()
    return f"export function libraryBytes() {{\n  return Uint8Array.from(atob('{letters}'), (letter) => letter.charCodeAt(0));\n}}\n"
