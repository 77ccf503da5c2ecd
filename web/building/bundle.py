"""Several modules as one script: each behind those that it imports from, without the words import and export."""
import re

from .modules import Wrong

IMPORT = re.compile(r"^import \{ ([\w, ]+) \} from '\./([\w.]+)';\n", re.M)
EXPORT = re.compile(r'^export (?:async )?(?:function|const|class) (\w+)', re.M)
NAME = re.compile(r'^(?:export )?(?:async )?(?:function|const|let|class) (\w+)', re.M)


def bundled(entry, folders):
    """The script of a module and all that it needs, each found in the first of these folders that has it."""
    script, names = [], {}
    for file in in_order(entry, folders, [], []):
        text = IMPORT.sub('', file.read_text())
        if re.search(r'^import\b|^export (?!const|function|class|async function)', text, re.M):
            raise Wrong(f'{file.name}: an import or export that can\'t be bundled')
        for name in NAME.findall(text):
            if name in names:
                raise Wrong(f'{file.name}: {name} stands in {names[name]}, too')
            names[name] = file.name
        script.append(re.sub(r'^export ', '', text, flags=re.M))
    return "'use strict';\n" + ''.join(script)


def in_order(name, folders, done, doing):
    if name in doing:
        raise Wrong(f'{name}: imports itself, by {", ".join(doing)}')
    file = found(name, folders)
    for names, needed in IMPORT.findall(file.read_text()):
        missing = set(names.split(', ')) - set(EXPORT.findall(found(needed, folders).read_text()))
        if missing:
            raise Wrong(f'{name}: {needed} has no {", ".join(sorted(missing))}')
        in_order(needed, folders, done, [*doing, name])
    if file not in done:
        done.append(file)
    return done


def found(name, folders):
    file = next((folder / name for folder in folders if (folder / name).exists()), None)
    if file is None:
        raise Wrong(f'{name}: there is no such module')
    return file
