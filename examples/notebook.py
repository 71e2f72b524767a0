#!/usr/bin/env python3
# A tour of a web server's log with the package and pandas, in the cells of a notebook. notebook.stdout has what it prints.
# It needs the package: pip install ./python, or PYTHONPATH=python. Without pandas, tables are printed as CSV.
from pathlib import Path

import spanbase

try:
    import pandas
except ImportError:
    pandas = None


def show(rows, **columns):
    """Prints rows as a table."""
    print(rows.to_pandas(**columns).to_string(index=False) + "\n" if pandas else rows.to_csv(**columns))


# %% Load the log. It becomes a document of a database.
db = spanbase.Database()
log = db.load("log", Path(__file__).parent / "logs.files/access.log")
print(f"{log} has {len(log)} bytes\n")

# %% A query is a regex. Its named groups are the columns.
requests = db.query(
    r'(?m)^(?P<host>\S+) - - \[(?P<time>[^]]+)\] "(?P<method>[A-Z]+) (?P<path>\S+) [^"\n]*" (?P<status>\d+) (?P<size>\d+)$'
)
show(requests.rows("log"))

# %% The requests that failed, with their lines in the file.
failed = db.query(r'(?m)^(?P<host>\S+) .*"[A-Z]+ (?P<path>\S+) [^"\n]*" (?P<status>[45]\d\d) ', name="failed")
show(failed.rows("log"), lines=True)

# %% Answers are counted, and any of them is found, without listing the others.
print(f"{failed.count('log')} requests failed, at last that of {failed.at('log', -1)['path'].text.decode()}\n")

# %% Queries can be joined: when were those requests, and how?
show((requests & failed).project("time", "method", "path", "status").rows("log"))

# %% What is a matter of numbers is one for pandas.
if pandas:
    table = requests.rows("log").to_pandas().astype({"status": int, "size": int})
    print(table.groupby("host").agg({"path": "count", "size": "sum", "status": "max"}).to_string() + "\n")

# %% Mark a version, and then remove a line. Only what changed is computed again.
db.mark("received")
line = db.query(r"(?m)^(?P<line>.* 503 .*\n)").at("log", 0)["line"]
del log[line.slice]
show(failed.rows("log"), lines=True)

# %% Hide the addresses. Of each one the whole is replaced, since the longest match is chosen.
db.replace("log", db.query(r"\d{1,3}(\.\d{1,3}){3}"), "log", "x.x.x.x")
print(bytes(log).decode())

# %% The version is still there, and is asked in the same way.
for version in db.versions.values():
    print(f"{failed.count(version['log'])} requests failed in version {version.name!r}, and {failed.count('log')} now")
db.close()
