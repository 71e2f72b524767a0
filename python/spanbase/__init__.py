"""spanbase: texts that are never unpacked, and queries with variables on them.

    import spanbase

    with spanbase.Database() as db:
        db.load("log", "access.log")
        failed = db.query(r'(?m)^(?P<host>\\S+) .* (?P<status>[45]\\d\\d) ')
        for row in failed.rows("log"):
            print(row["host"].text, row["status"].line)

A database has a shell of the program `spanshell` behind it. All of it is described in docs/PYTHON.md of the repository.
"""
from spanbase.database import Database, Saved
from spanbase.documents import Document, Version
from spanbase.errors import *  # noqa: F403
from spanbase.errors import __all__ as _errors
from spanbase.expressions import Expression, concat
from spanbase.formula import Translation, Untranslatable, translate
from spanbase.query import Page, Query, Row, Rows, Span

__version__ = "0.1.0"

__all__ = [
    "Database",
    "Document",
    "Expression",
    "Page",
    "Query",
    "Row",
    "Rows",
    "Saved",
    "Span",
    "Translation",
    "Untranslatable",
    "Version",
    "concat",
    "translate",
    *_errors,
]
