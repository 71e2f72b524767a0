#!/usr/bin/env python3
"""Prints each answer of a regex in files, a JSON object a line: examples/client.py REGEX FILE ..

It needs the package: pip install ./python, or PYTHONPATH=python.
"""
import json
import sys

import spanbase

with spanbase.Database() as db:
    query = db.query(sys.argv[1])
    for path in sys.argv[2:]:
        for record in query.rows(db.load("file", path)).records(spans=True, lines=True):
            print(json.dumps({"file": path, **record}))
