"""One HTML file that fetches nothing: a style, a script, and the data, packed in two parts. The first part is what is drawn at once; the
second one, the columns of a trace's crossings, stands behind the script, which reads it while the page can be looked at.

What a trace or a folder says stands in the file only within the packed data, in base64, and in the title, escaped. The head's content
policy lets the one style and the one script through, by their sums, and nothing else: no other script, no handler in the markup, no
evaluation, no picture, no connection. Where the browser has trusted types, no text can become markup at all.
"""
import base64
import hashlib
import html
import json
import os
import struct
import zlib

HERE = os.path.dirname(os.path.abspath(__file__))


def shown(text):
    """A text as the pages show it: printable ASCII as it is, all else as a trace has it."""
    units = text.encode('utf-16-le', 'surrogatepass')
    return ''.join(chr(unit) if 0x20 <= unit <= 0x7e else f'\\u{unit:04x}' for unit, in struct.iter_unpack('<H', units))


def line_of(text):
    """A line as the tools print it: as the pages show a text, and of a long one its two ends, 200 characters in all."""
    text = shown(text)
    return text if len(text) <= 200 else f'{text[:110]} .. {text[-86:]}'


def part(name):
    with open(os.path.join(HERE, name), encoding='ascii') as file:
        return file.read()


def packed(name, content):
    return f'<script type="text/plain" id="{name}">{base64.b64encode(zlib.compress(content, 6)).decode("ascii")}</script>'


def placed(columns):
    """Columns of numbers or bytes, (name, kind, bytes), one behind the other, and the place of each: name: [kind, from, size]."""
    places, body = {}, bytearray()
    for name, kind, content in columns:
        body += bytes(-len(body) % 8)
        places[name] = [kind, len(body), len(content)]
        body += content
    return places, body


def source(content):
    return "'sha256-" + base64.b64encode(hashlib.sha256(content.encode('ascii')).digest()).decode('ascii') + "'"


def make_page(title, scripts, data, columns=()):
    style, script = part('page.css'), ''.join(part(name) for name in scripts)
    places, body = placed(columns)
    data = {**data, 'columns': places, 'size': len(body)}
    # (an end of the element within it would end it)
    assert '</s' not in script.lower() and '</s' not in style.lower() and '<!--' not in script
    policy = f"default-src 'none'; script-src {source(script)}; style-src {source(style)}; base-uri 'none'; form-action 'none'; " \
             "require-trusted-types-for 'script'; trusted-types 'none'"
    return f'''<!DOCTYPE html>
<html lang="en">
<head>
<meta charset="utf-8">
<meta http-equiv="Content-Security-Policy" content="{policy}">
<meta name="viewport" content="width=device-width, initial-scale=1">
<meta name="color-scheme" content="light dark">
<meta name="referrer" content="no-referrer">
<title>{html.escape(shown(title))}</title>
<style>{style}</style>
</head>
<body>
<noscript><p>This page is drawn by its own script, which the browser has switched off. It fetches nothing.</p></noscript>
<main id="page"><p class="wait">Reading ..</p></main>
{packed('data', json.dumps(data, separators=(',', ':')).encode('ascii'))}
<script>{script}</script>
{packed('columns', body) if columns else ''}
</body>
</html>
'''


def write_page(path, page):
    """Puts the page where it belongs, whole or not at all."""
    making = f'{path}.{os.getpid()}.new'
    try:
        with open(making, 'w', encoding='ascii') as file:
            file.write(page)
        os.replace(making, path)
    finally:
        if os.path.exists(making):
            os.remove(making)
