"""A line of JSON in, a line out, by the shared library of this name: python3 library.py LIBRARY, also in a Python for another processor. The requests
are those of engine.mjs. tools/try-arm starts it."""
from __future__ import annotations

import base64
import json
import pathlib
import sys

sys.path.insert(0, str(pathlib.Path(__file__).resolve().parent.parent))
from model.engines import Library

library = Library(sys.argv[1])
for line in sys.stdin:
    asked = json.loads(line)
    if 'exports' in asked:
        said = ['cellar_run']
    elif 'lines' in asked:
        said = library.live([base64.b64decode(it) for it in asked['lines']], asked['limit'])
    else:
        status, text = library._ask(asked['call'], base64.b64decode(asked['text']))
        said = [status, base64.b64encode(text).decode()]
    print(json.dumps(said), flush=True)
