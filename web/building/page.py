"""The page: markup, style and script in one file, under a policy that allows just these."""
import base64
import hashlib
import json
import re

from .bundle import bundled
from .modules import Wrong


def assembled(web, made):
    worker = bundled('worker.js', [web / 'work', web / 'both', made])
    (made / 'worker_source.js').write_text(f'export const workerSource = {in_script(json.dumps(worker))};\n')
    script = bundled('main.js', [web / 'view', web / 'both', made])
    style = ''.join(file.read_text() for file in sorted((web / 'style').glob('*.css')))
    parts = {
        '<!--POLICY-->': f'<meta http-equiv="Content-Security-Policy" content="{policy(script, style)}">',
        '<!--STYLE-->': f'<style>{style}</style>',
        '<!--SCRIPT-->': f'<script>{script}</script>',
    }
    return filled((web / 'page.html').read_text(), parts)


def filled(markup, parts):
    """The markup with each part in its place. A part is not looked into: a script may hold the letters of a place."""
    pieces = re.split('(' + '|'.join(map(re.escape, parts)) + ')', markup)
    for place in parts:
        if pieces.count(place) != 1:
            raise Wrong(f'page.html: {place} stands there {pieces.count(place)} times')
    return ''.join(parts.get(piece, piece) for piece in pieces)


def in_script(text):
    """A literal that can't end the script element that holds it."""
    return text.replace('</', '<\\/').replace('<!--', '<\\!--')


def policy(script, style):
    """No request of any kind; the one script and the one style, by their sums; the library compiled; the worker made of the script's own letters."""
    allowed = [
        "default-src 'none'",
        f"script-src '{sum_of(script)}' 'wasm-unsafe-eval'",
        f"style-src '{sum_of(style)}'",
        'worker-src blob:',
        "base-uri 'none'",
        "form-action 'none'",
    ]
    return '; '.join(allowed)


def sum_of(text):
    return 'sha256-' + base64.b64encode(hashlib.sha256(text.encode()).digest()).decode()
