#!/usr/bin/env python3
"""Makes the texts and scripts of the benchmark in a folder: inputs.py [--quick] [--huge] [--text FILE ..] FOLDER

Real texts are found on the machine: sources, lists of packages, a genome; --text adds any file. All else comes from
seeded generators, so it is the same at every run. Without options the log has 1 and 16 MB; --quick makes small inputs
alone, and --huge adds the log of 256 MB.
"""
import argparse
import gzip
import itertools
import pathlib
import random
import shutil
import string
import subprocess
import sysconfig

MEGABYTE = 1 << 20

# ---------------------------------------------------------------------------------------------------------------- texts

PATH_WORDS = (
    "index home about news item cart user login search static images css js api v1 v2 help faq blog post archive tag "
    "feed admin status health metrics orders invoice report export list detail edit new"
).split()

PLATFORMS = (
    "X11; Linux x86_64",
    "Windows NT 10.0; Win64; x64",
    "Macintosh; Intel Mac OS X 10_15_7",
    "iPhone; CPU iPhone OS 17_1",
)
ENGINES = (("Gecko/20100101", "Firefox"), ("AppleWebKit/537.36 (KHTML, like Gecko)", "Chrome"))
AGENTS = [
    f"Mozilla/5.0 ({platform}) {engine} {browser}/{version}.0"
    for platform in PLATFORMS
    for engine, browser in ENGINES
    for version in (118, 119, 120)
] + ["curl/8.4.0", "Googlebot/2.1 (+http://www.google.com/bot.html)", "python-requests/2.31", "kube-probe/1.28"]

STATUSES = ((0.86, "200"), (0.93, "304"), (0.96, "301"), (0.985, "404"), (0.992, "403"), (0.997, "500"), (1.0, "503"))


def often(rng, many):
    """A number below `many`, small ones far more often."""
    return min(int(many * rng.random() ** 3), many - 1)


def web_log(size, seed=1):
    """A web server's log in the combined format. Hosts, paths and agents repeat by a power law."""
    rng = random.Random(seed)
    hosts = [".".join(str(rng.randint(1, 254)) for _ in range(4)) for _ in range(2000)]
    ends = lambda: rng.choice(["", ".html", f"?id={rng.randint(1, 9999)}"])
    paths = ["/" + "/".join(rng.choice(PATH_WORDS) for _ in range(rng.randint(1, 4))) + ends() for _ in range(3000)]
    lengths = [str(rng.randint(100, 90000)) for _ in range(3000)]
    lines, have, second = [], 0, 0
    while have < size:
        second += rng.random() < 0.3
        path = often(rng, 3000)
        drawn = rng.random()
        status = next(status for bound, status in STATUSES if drawn < bound)
        when = f"{1 + second // 86400 % 30:02}/Nov/2026:{second // 3600 % 24:02}:{second // 60 % 60:02}:{second % 60:02}"
        method = "GET" if rng.random() < 0.92 else "POST"
        length = lengths[path] if status == "200" else "0"
        referrer = "-" if rng.random() < 0.7 else "https://example.org" + paths[often(rng, 3000)]
        agent = AGENTS[often(rng, len(AGENTS))]
        line = f'{hosts[often(rng, 2000)]} - - [{when} +0000] "{method} {paths[path]} HTTP/1.1" {status} {length} "{referrer}" "{agent}"\n'
        lines.append(line)
        have += len(line)
    return "".join(lines)[:size].encode()


def prose(size, seed=2):
    """Sentences of a made language of 4,000 words in lines of about 80 bytes, and its words."""
    rng = random.Random(seed)
    syllables = [first + second for first in "bcdfghklmnprstvw" for second in "aeiou"]
    words = ["".join(rng.choice(syllables) for _ in range(rng.randint(1, 4))) for _ in range(4000)]
    parts, have, column = [], 0, 0
    while have < size:
        part = words[often(rng, 4000)] + (". " if rng.random() < 0.08 else " ")
        column += len(part)
        if column > 80:
            part, column = part[:-1] + "\n", 0
        parts.append(part)
        have += len(part)
    return "".join(parts)[:size].encode(), words


def genome(size, seed=4):
    """Letters ACGT, nearly a third of them in elements of 300 letters that come again and again."""
    rng = random.Random(seed)
    elements = ["".join(rng.choice("ACGT") for _ in range(300)) for _ in range(40)]
    piece = lambda: rng.choice(elements) if rng.random() < 0.3 else "".join(rng.choices("ACGT", k=300))
    return "".join(piece() for _ in range(size // 300 + 1))[:size].encode()


# --------------------------------------------------------------------------------------------------------- real texts

# the genome of phage lambda and reads of it, from Debian's package bowtie2-examples
EXAMPLES = pathlib.Path("/usr/share/doc/bowtie2/examples")

STATUS_OF_PACKAGES = pathlib.Path("/var/lib/dpkg/status")


def source_files():
    """The files of Python's standard library, one after the other."""
    for file in sorted(pathlib.Path(sysconfig.get_path("stdlib")).rglob("*.py")):
        if "site-packages" not in file.parts:
            yield file.read_bytes()


def sources(size):
    """The sources of Python's standard library, one file after the other."""
    parts, have = [], 0
    for part in source_files():
        if have >= size:
            break
        parts.append(part)
        have += len(part)
    return b"".join(parts)[:size]


def packages(size):
    """The list of packages that the machine knows, or of those that it has."""
    listed = b""
    if shutil.which("apt-cache"):
        listed = subprocess.run(["apt-cache", "dumpavail"], stdout=subprocess.PIPE, check=False).stdout
    if not listed and STATUS_OF_PACKAGES.exists():
        listed = STATUS_OF_PACKAGES.read_bytes()
    return listed[:size]


def letters(size, folder=EXAMPLES):
    """A genome, and then the reads of a machine that read it, letters alone."""
    parts = []
    for file in [*folder.glob("reference/*.fa.gz"), *sorted(folder.glob("reads/*.fq.gz"))]:
        with gzip.open(file, "rb") as text:
            parts += [line for line in text.read().splitlines() if line and not line.strip(b"ACGTN")]
    return b"".join(parts)[:size]


# by its name: a real text, and a formula with one variable
REAL_TEXTS = {
    "sources": (sources, r"(.*\n)?def $n{[a-zA-Z0-9_]+}[^\n]*:\n.*"),
    "packages": (packages, r"(.*\n)?Package: $n{[^\n]*}\n.*"),
    "letters": (letters, ".*$n{TATA[AT]A[AT]}.*"),
}

LINES = r"(.*\n)?$n{[^\n]*}\n.*"


def text_scripts(name, formula, size):
    """A real text loaded; asked, with first answers; edited all over, with a page after each edit; and an image opened."""
    load = [f"load d {name}"]
    ask = load + [f"query q {formula}", "test q d", "list q d limit 10000"]
    edits = load + [f"query q {formula}", "text e a line that was put in by an edit"]
    for part in range(1, 100):
        at = 1 + size * part // 101
        edits += [f"let d = insert(delete(d,{at},{at + 1}),e,{at})", f"list q d after {cursor('n', at)} limit 10"]
    image = load + ["save image", "open image", "names"]
    scripts = {f"{name}_load": load, f"{name}_ask": ask, f"{name}_edits": edits, f"{name}_image": image}
    return scripts | {f"shared_{name}": [f"share d {name}"]}


def make_texts(folder, quick, files):
    """The real texts that the machine has, and the files that were named, each with its scripts."""
    size = MEGABYTE if quick else 64 * MEGABYTE
    texts = {name: (make_text(size), formula) for name, (make_text, formula) in REAL_TEXTS.items()}
    texts |= {f"text{place}": (file.read_bytes(), LINES) for place, file in enumerate(files)}
    for name, (text, formula) in texts.items():
        for old in [*folder.glob(f"{name}_*.script"), *folder.glob(f"shared_{name}.script")]:
            old.unlink()
        if len(text) < 1000:
            continue
        (folder / name).write_bytes(text)
        for script, lines in text_scripts(name, formula, len(text)).items():
            write_script(folder / f"{script}.script", lines)


def files_script(folder, name, count):
    """Files of Python's standard library, each loaded as a document of its own."""
    (folder / name).mkdir(exist_ok=True)
    lines = []
    for place, text in enumerate(itertools.islice(source_files(), count)):
        (folder / name / f"{place}").write_bytes(text)
        lines.append(f"load d{place} {name}/{place}")
    return lines


def shifted_versions(text, count):
    """Versions of a text that each lack 37 more of its first bytes."""
    return [text[37 * version :] for version in range(count)]


def mutated_genomes(text, count, changes=30, seed=8):
    """A genome, and copies of it with this number of letters replaced, removed or inserted in each."""
    rng = random.Random(seed)
    genomes = [text]
    for _ in range(count):
        copy = bytearray(text)
        for _ in range(changes):
            at, kind = rng.randrange(len(copy)), rng.random()
            copy[at : at + (kind < 0.9)] = rng.choice("ACGT").encode() if kind < 0.8 or kind >= 0.9 else b""
        genomes.append(bytes(copy))
    return genomes


def collection_scripts(folder, name, texts):
    """A collection of similar files, each loaded as a document of its own: by `load`, and by `share`."""
    (folder / name).mkdir(exist_ok=True)
    for place, text in enumerate(texts):
        (folder / name / f"{place}").write_bytes(text)
    scripts = {f"{name}_load": "load", name: "share"}
    return {script: [f"{command} d{place} {name}/{place}" for place in range(len(texts))] for script, command in scripts.items()}


# -------------------------------------------------------------------------------------------------------------- scripts

# name, formula, and the variables
LOG_QUERIES = [
    ("t0", r'.*" 500 [^\n]*curl.*', ""),
    ("p1", r'.*"GET $p{[^ "\n]*} HTTP.*', "p"),
    ("h1", r'(.*\n)?$h{[0-9.]+} [^\n]*" 404 [^\n]*\n.*', "h"),
    ("s2", r'.*"[A-Z]+ $p{[^ "\n]*} HTTP/1.1" $s{5[0-9][0-9]} .*', "ps"),
    ("x3", r'(.*\n)?$h{[0-9.]+} - - \[[^\]\n]*\] "POST $p{[^ "\n]*} HTTP/1.1" $s{[0-9]+} .*', "hps"),
]


def cursor(variables, place):
    """A tuple of empty spans at one place."""
    return ",".join(f"{variable}=[{place},{place})" for variable in variables) or "()"


# by the number of variables: a formula that is met somewhere, and formulas that are met in most lines
PHASE_QUERIES = [
    (r'.*" 500 [^\n]*curl.*', ""),
    (r'.*"GET $p{[^ "\n]*} HTTP.*', "p"),
    (r'.*"[A-Z]+ $p{[^ "\n]*} HTTP/1.1" $s{[0-9]+} .*', "ps"),
    (r'(.*\n)?$h{[0-9.]+} - - \[[^\]\n]*\] "[A-Z]+ $p{[^ "\n]*} HTTP/1.1" $s{[0-9]+} .*', "hps"),
]


def phase_scripts(file, size):
    """A script for each phase on a log, by its name: loading; an image of it; a query with 0 to 3 variables, made ready and
    tested; its first 10,000 answers; and edits all over with the same question after each."""
    load = [f"load d {file}"]
    scripts = {"load": load, "image": load + ["save image", "open image", "names"]}
    for count, (formula, variables) in enumerate(PHASE_QUERIES):
        asked = load + [f"query q {formula}"]
        scripts[f"ask{count}"] = asked + ["test q d"]
        if variables:
            scripts[f"list{count}"] = asked + ["list q d limit 10000"]
    removed = 57
    edits = scripts["ask1"] + ["text e " + "a line without fields, put in by an edit".ljust(removed, ".")]
    for part in range(1, 500):
        at = size * part // 500
        edits += [f"let d = insert(delete(d,{at},{at + removed}),e,{at})", "test q d"]
        edits += [f"list q d after {cursor('p', at)} limit 10"]
    return scripts | {"edits": edits}


def counting_scripts(file, text):
    """By its name: the answers of a query with 1 to 3 variables counted; counted again after each of 499 edits; and 2,000
    answers by their numbers, with the ranks of 2,000 tuples."""
    size, load = len(text), [f"load d {file}"]
    asked = {count: load + [f"query q {PHASE_QUERIES[count][0]}", "test q d"] for count in (1, 2, 3)}
    scripts = {f"count{count}": lines + ["count q d"] for count, lines in asked.items()}
    edited = scripts["count1"] + ["text e a line without fields"]
    for part in range(1, 500):
        edited += [f"let d = insert(d,e,{size * part // 500})", "count q d"]
    numbers, some = text.count(b'"GET '), range(2000)
    pages = [f"list q d at {1 + numbers * part // len(some)} limit 1" for part in some]
    ranks = [f"rank q d {cursor('p', 1 + size * part // len(some))}" for part in some]
    return scripts | {"count_after_edit": edited, "nth": scripts["count1"] + pages + ranks}


HOST = r"(.*\n)?$h{[0-9.]+} [^\n]*\n.*"


def chosen_scripts(file, text):
    """By its name: as many addresses of a log hidden at once as may be; a page of each of the 256 parts of a log; and ten times
    the same pages."""
    load, lines = [f"load d {file}", f"query h {HOST}"], text.splitlines(keepends=True)
    some = sum(map(len, lines[: min(len(lines) - 1, 1 << 15)]))
    hide = load + [f"let p = extract(d,1,{some + 1})", "text w x.x.x.x", "replace e h p w", "list h e limit 1"]
    count = 256
    cuts = [1 + len(text) * part // count for part in range(count + 1)]
    cut = [f"let part{part} = extract(d,{cuts[part]},{cuts[part + 1]})" for part in range(count)]
    parts = load + cut + ["drop d", "listall h limit 1000"]
    return {"hide": hide, "parts": parts, "pages": parts + 9 * parts[-1:]}


# queries of a log that are put together
FAILED = r'(.*\n)?$h{[0-9.]+} [^\n]*" [45][0-9][0-9] [^\n]*\n.*'
GOT = r'(.*\n)?$h{[0-9.]+} [^\n]*"GET $p{[^ "\n]*} HTTP[^\n]*\n.*'
POSTED = r'(.*\n)?$h{[0-9.]+} [^\n]*"POST $p{[^ "\n]*} HTTP[^\n]*\n.*'


def made_scripts(file):
    """By its name: queries of a log that are made of queries, made ready, with their first 10,000 answers."""
    load = [f"load d {file}", f"query failed {FAILED}", f"query got {GOT}", f"query posted {POSTED}"]
    union = load + ["union q got posted"]
    join = union + ["join q failed q"]
    project = join + ["project q q p"]
    kept = {"union": union, "join": join, "project": project}
    rid = ["unquery failed", "unquery got", "unquery posted", "list q d limit 10000"]
    return {name: lines + rid for name, lines in kept.items()}


LETTERS = string.ascii_letters + string.digits + "_"
EIGHT = "abcdefgh"


def each_optional(names):
    """A formula in which each of the variables has an empty span at one place, or none."""
    return "".join(f"(${name}{{}})?" for name in names)


def many_marks():
    """A formula of few states and 3,072 marks at one of them: each of eight variables has an empty span at one place or
    none, or one or two of them have a span of one byte from there."""
    parts = [each_optional(EIGHT)]
    parts += [each_optional(EIGHT.replace(one, "")) + f"${one}{{.}}" for one in EIGHT]
    for one, two in itertools.combinations(EIGHT, 2):
        others = EIGHT.replace(one, "").replace(two, "")
        parts += [each_optional(others) + f"${one}{{${two}{{.}}}}"]
    return f".*({'|'.join(parts)}).*"


def compositions_script(file, size):
    """Asks a query of 102 states of letters by chance, which it tells apart in so many ways that nearly each node has a table
    of its own. The text, and the lines."""
    rng = random.Random(11)
    letters = string.ascii_letters + string.digits
    text = "".join(rng.choices(letters, k=size))
    sets = "".join(f"[^{''.join(rng.sample(letters, 2))}]" for _ in range(100))
    return text.encode(), [f"load d {file}", f"query q .*$x{{{sets}}}.*", "test q d"]


def algebra_script():
    """Queries made of queries, dear to make: up to 128 states, eight variables, many marks; asked of a short text."""
    last_letter = f"({'|'.join(LETTERS)})*"
    captured = "".join(f"${name}{{{LETTERS[:7]}}}{LETTERS[7:14]}" for name in EIGHT) + LETTERS[:14]
    few = lambda times: f"({'b*a' * times})*b*c"
    some = lambda times: f"({'a*b' * times})*a*c"
    return [
        "text d abcabc",
        # 127 states, 63 letters, and 256 marks in each second state
        f"query last {last_letter}",
        f"query all .*{each_optional(EIGHT)}.*",
        "join j last all",
        "union u j j",
        "project p j h,g,f,e,d,c,b,a",
        "project p p g,e,c,a",
        "project p p ()",
        "test p d",
        # each mark of one side meets each of the other
        f"query w {many_marks()}",
        "join k w w",
        "union k k w",
        "project k k a,b,c,d",
        "list k d limit 10000",
        # 127 states of which eight variables take a part
        f"query chain {captured}",
        "union v chain chain",
        "join v v chain",
        "project v v d,c,b,a",
        # a product of 128 states, and one of more
        f"query x {few(7)}",
        f"query y {some(9)}",
        "join z x y",
        f"query x {few(7)}c",
        f"query y {some(9)}c",
        "join z x y",
        # a projection of few states to more than 128, and one of 128 to 128
        "query n $x{[ab]*}a[ab][ab][ab][ab][ab][ab]",
        "project z n ()",
        f"query n $x{{.*}}{'.' * 126}",
        "project z n ()",
        # as many parts as may be, 127
        *["query t .*$x{a}.*", *["union t t t"] * 6, "list t d limit 10000"],
    ]


# any byte of a line
IN_LINE = r"[^\n]"


def gap(left, one, many, right):
    """A formula that captures two texts with at most so many bytes of a set between them."""
    return f".*$x{{{left}{f'{one}?' * many}{right}}}.*"


def gaps_script():
    """Asks for two texts at most so many bytes apart: 703 and 423 states in a genome, 365 in a log."""
    return [
        "load g genome",
        "load d log1m",
        f"query wide {gap('TTGACA', '.', 100, 'TATAAT')}",
        f"query near {gap('TTGACA', '.', 60, 'TATAAT')}",
        f"query post {gap('POST /', IN_LINE, 60, ' 50[03] ')}",
        *[f"list {name} g limit 1000" for name in ("wide", "near")],
        "list post d limit 1000",
        "count post d",
    ]


# fields of a line by their names: the variable that has the value, and the bytes that it is made of
FIELDS = {
    "client": ("c", "[0-9.]+"),
    "request": ("q", r"[^ \n]+"),
    "status": ("s", "[45][0-9]+"),
    "duration": ("d", "[0-9]+"),
}


def records(size, seed=8):
    """A log whose lines have some of the fields, and a user, in any order."""
    rng = random.Random(seed)
    clients = [f"10.{rng.randint(0, 9)}.{rng.randint(0, 255)}.{rng.randint(1, 254)}" for _ in range(300)]
    lines, have = [], 0
    while have < size:
        fields = [
            f"client={clients[often(rng, 300)]}",
            f"request=/{rng.choice(PATH_WORDS)}/{rng.choice(PATH_WORDS)}",
            f"status={rng.choice(('200', '200', '304', '404', '500'))}",
            f"duration={rng.randint(1, 99999)}",
            f"user={often(rng, 1000)}",
        ]
        rng.shuffle(fields)
        lines.append(" ".join(fields[: rng.randint(3, 5)]) + "\n")
        have += len(lines[-1])
    return "".join(lines)[:size].encode()


def fields_script():
    """Joins queries of one field of a line each, in whatever order the fields come. The join of four has 356 states."""
    lines = ["load d records"]
    for name, (variable, value) in FIELDS.items():
        lines += [rf"query {variable} (.*\n)?$r{{([^\n]* )?{name}=${variable}{{{value}}}( [^\n]*)?}}\n.*"]
    first, *others = [variable for variable, _ in FIELDS.values()]
    lines += [f"join {first} {first} {variable}" for variable in others]
    return lines + [f"list {first} d limit 10000"]


def words_script(words, count):
    """Asks for each of so many words, wherever it begins. A formula has at most 512 letters, so it is a union of three."""
    chosen = random.Random(6).sample(words, count)
    lines = ["load d prose"]
    lines += [f"query w{part} .*$w{{{'|'.join(chosen[part::3])}}}.*" for part in range(3)]
    return lines + ["union w w0 w1", "union w w w2", "test w d", "list w d limit 10000"]


# by the number of variables: a formula that is met in each sentence of a long text
SENTENCE = "the quick brown fox; jumps=17 over the lazy dog."
SENTENCE_QUERIES = [
    (r".*[; ][a-z]+=[0-9]+ over .*", ""),
    (r".*[; ]$k{[a-z]+}=[0-9]+ over .*", "k"),
    (r".*[; ]$k{[a-z]+}=$v{[0-9]+} over .*", "kv"),
    (r".*[; ]$k{[a-z]+}=$v{[0-9]+} over the $w{[a-z]+} .*", "kvw"),
]


def doubled_scripts():
    """By its name, for 0 to 3 variables, a script over a sentence that was doubled to more than 2^47 bytes: the first 10,000
    answers; and 10,000 after a cursor in the middle, and again after an edit there."""
    lines, size = [f"text t {SENTENCE}", "text e ; x=1 over the fence "], len(SENTENCE)
    while 2 * size <= 1 << 48:
        size *= 2
        lines += ["let t = concat(t,t)"]
    scripts = {}
    for count, (formula, variables) in enumerate(SENTENCE_QUERIES):
        asked, after = lines + [f"query q {formula}"], f"after {cursor(variables, size // 2)} limit 10000"
        scripts[f"first{count}"] = asked + ["list q t limit 10000"]
        scripts[f"middle{count}"] = asked + [f"list q t {after}", f"let u = insert(t,e,{size // 2})", f"list q u {after}"]
    return scripts


def log_script(file, size):
    """Loads a log, asks five queries with 0 to 3 variables, pages through the answers, and edits and asks again."""
    lines = [f"load d {file}"]
    lines += [f"query {name} {formula}" for name, formula, _ in LOG_QUERIES]
    lines += ["test t0 d"]
    lines += [f"list {name} d limit 10000" for name, _, variables in LOG_QUERIES if variables]
    for part in range(1, 20):
        at = size * part // 20
        lines += [f"list {name} d after {cursor(found, at)} limit 500" for name, _, found in LOG_QUERIES if found]
    lines += ["text e inserted line without fields"]
    for part in range(1, 50):
        at = size * part // 50
        lines += [
            f"let d = insert(delete(d,{at},{at + 57}),e,{at})",
            f"list p1 d after {cursor('p', at)} limit 100",
            f"list x3 d after {cursor('hps', at)} limit 20",
            "test t0 d",
        ]
    return lines + ["list s2 d limit 10000", "names"]


def compact_scripts(file, size):
    """By its name: a log of which half is let go, compacted; the edits of `edits`, compacted after each tenth."""
    ask = phase_scripts(file, size)["ask1"]
    half = ask + [f"let d = extract(d,1,{size // 2})", "compact", f"list q d after {cursor('p', size // 4)} limit 10"]
    edits, count = [], 0
    for line in phase_scripts(file, size)["edits"]:
        edits += [line]
        count += line.startswith("let ")
        if line.startswith("list ") and count % 10 == 0:
            edits += ["compact"]
    return {"compact": half, "compacts": edits}


def marks_script(count):
    """So many marks of so many documents, and a compaction, which goes through all of them; then the marks go."""
    lines = [f"text doc{place} {place} {'x' * (place % 7)}" for place in range(count)]
    lines += ["query q .*$x{7}.*"]
    for version in range(count):
        lines += [f"text doc{version} {version} changed", f"mark v{version}"]
    lines += ["listall q limit 1", "compact", "listall q limit 1"]
    lines += [f"unmark v{version}" for version in range(count - 1)]
    return lines + ["compact", f"back v{count - 1}", "listall q limit 1"]


def marked_script(file, size, words, count):
    """A text in many versions, each an edit of the one before and marked; then asked one after another, those behind
    taken out, with a compaction after every hundredth."""
    rng = random.Random(3)
    lines = [f"load d {file}", f"query w .*[ \\n]$w{{{words[70]}}}[ \\n.].*", "mark v0"]
    for version in range(1, count + 1):
        at, to = rng.randint(1, size * 9 // 10), rng.randint(1, size * 9 // 10)
        lines += [f"text a {rng.choice(words)} {rng.choice(words)} "]
        copied, removed = at + rng.randint(1, 3000), rng.randint(2, 3000)
        lines += [f"let d = delete(copy(insert(d,a,{at}),{at},{copied},{to}),1,{removed})"]
        lines += [f"mark v{version}"]
    for version in range(1, count + 1):
        lines += [f"back v{version}", "list w d limit 10", f"unmark v{version - 1}"]
        lines += ["compact"] if version % 100 == 0 else []
    return lines + ["names"]


def versions_script(file, size, words, count):
    """Keeps many versions of one text, each a few edits from the one before, and asks in some of them."""
    rng = random.Random(3)
    lines = [
        f"load v0 {file}",
        f"query w .*[ \\n]$w{{{words[70]}}}[ \\n.].*",
        r"query s .*\. $s{[a-z]+} $t{[a-z]+} [^.\n]*\..*",
        r"query c (.*\n)?$l{ADDED [a-z]+ line}\n.*",
        f"query z .*{words[900]} {words[901]}.*",
    ]
    for version in range(1, count + 1):
        old, new = f"v{version - 1}", f"v{version}"
        lines += [f"text a {rng.choice(words)} {rng.choice(words)} ", f"text b ADDED {words[version % 4000]} line"]
        first, second, third = sorted(rng.randint(1, size * 9 // 10) for _ in range(3))
        edits = [
            f"insert({old},a,{first})",
            f"delete({old},{first},{first + rng.randint(1, 40)})",
            f"copy({old},{first},{first + rng.randint(1, 3000)},{second})",
            f"insert(delete(insert({old},a,{first}),{second},{second + 12}),a,{third})",
        ]
        lines += [f"let {new} = {rng.choice(edits)}"]
        if version % 10 == 0:
            lines += [f"let {new} = insert(concat({new},b),b,{second})"]
        if version % 50 == 0:
            lines += [f"list w {new} limit 200", f"list c {new} limit 50"]
            lines += [f"list s {new} after {cursor('st', second)} limit 100"]
    last = f"v{count}"
    lines += [f"test z {last}"] + [f"list {name} {last} limit 10000" for name in "wsc"]
    lines += [f"drop v{version}" for version in range(count // 2)]
    return lines + [f"list w {last} limit 10000", "names"]


def listed_versions_script(file, size, words, count):
    """Keeps many versions of one text, and lists a page of each at once."""
    kept = [line for line in versions_script(file, size, words, count) if line.split()[0] in ("load", "text", "let")]
    return kept + [f"query w .*[ \\n]$w{{{words[70]}}}[ \\n.].*", "listall w limit 100"]


# a start codon, any codons that aren't stops, and a stop
CODON = "(([ACG][ACGT][ACGT])|T(([CGT][ACGT])|(A[CT])|(G[CGT])))"


def genome_script(file, size, edits):
    """Doubles a genome twice, makes many point mutations and copies, and lists motifs between them."""
    rng = random.Random(5)
    lines = [f"load g {file}", "let g = concat(g,g)", "let g = concat(g,g)"]
    lines += [f"text {letter} {letter}" for letter in "ACGT"]
    lines += [
        "query motif .*$m{TATA[AT]A[AT]}.*",
        f"query orf .*$o{{ATG([ACG][ACGT][ACGT]){CODON}{CODON}(TAA|TAG|TGA)}}.*",
        "query pair .*$x{GAATTC}[ACGT][ACGT]?[ACGT]?[ACGT]?$y{GGATCC}.*",
        "query none .*(ACGT)(ACGT)(ACGT)(ACGT).*",
        "list motif g limit 10000",
    ]
    anywhere = lambda: rng.randint(1, 4 * size - 10)
    for edit in range(edits):
        at, kind = anywhere(), rng.random()
        if kind < 0.8:
            lines += [f"let g = insert(delete(g,{at},{at + 1}),{rng.choice('ACGT')},{at})"]
        elif kind < 0.9:
            lines += [f"let g = delete(g,{at},{at + 1})"]
        else:
            lines += [f"let g = copy(g,{at},{at + rng.randint(20, 2000)},{anywhere()})"]
        if edit % (edits // 20) == 0:
            lines += [f"list motif g after {cursor('m', at)} limit 100", f"list pair g after {cursor('xy', at)} limit 20"]
    return lines + ["test none g"] + [f"list {name} g limit 10000" for name in ("motif", "orf", "pair")] + ["names"]


def long_script():
    """Texts of up to 2^48 bytes by doubling: first answers, pages from all over, and edits between."""
    rng = random.Random(7)
    lines = ["text d ab", "text c the quick brown fox; jumps=17 over the lazy dog."]
    lines += [
        "query q .*$x{ba}.*",
        "query k .*; $k{[a-z]+}=$v{[0-9]+} .*",
        "query t .*zz.*",
        "query a3 .*$x{a}b$y{a}b$z{a}.*",
    ]
    lines += ["let d = concat(d,d)"] * 47 + ["let c = concat(c,c)"] * 42
    lines += ["test t d", "list q d limit 10000", "list k c limit 10000", "list a3 d limit 10000"]
    for part in range(1, 100):
        at = (part << 41) + part
        lines += [f"list q d after x=[{at},{at + 1}) limit 100", f"has q d x=[{at},{at + 2})"]
        lines += [f"list k c after {cursor('kv', part * 2_000_000_000_000)} limit 20"]
    middle = 1 << 47
    lines += [f"let d = extract(d,1,{(1 << 48) - (1 << 40)})"]
    for _ in range(300):
        at = rng.randint(1, middle)
        lines += [f"let d = copy(delete(d,{at},{at + 3}),{at},{at + 3},{rng.randint(1, middle)})"]
        lines += [f"list q d after {cursor('x', at)} limit 20"]
    return lines + ["list a3 d limit 10000", "test t d", "names"]


# ----------------------------------------------------------------------------------------------------------------- main


def make(folder, quick, huge, files):
    """Makes all inputs in a folder. A log that is there is kept, since it takes longest."""
    folder.mkdir(parents=True, exist_ok=True)
    make_texts(folder, quick, files)
    write_script(folder / "files.script", files_script(folder, "files", 100 if quick else 1000))
    logs = {"log1m": MEGABYTE}
    if not quick:
        logs["log16m"] = 16 * MEGABYTE
    if huge:
        logs["log256m"] = 256 * MEGABYTE
    for name, size in logs.items():
        file = folder / name
        if not file.exists() or file.stat().st_size != size:
            file.write_bytes(web_log(size))
        write_script(folder / f"{name}.script", log_script(name, size))
    file, size = max(((name, size) for name, size in logs.items() if name != "log256m"), key=lambda it: it[1])
    phases = phase_scripts(file, size) | chosen_scripts(file, (folder / file).read_bytes()) | doubled_scripts()
    phases |= counting_scripts(file, (folder / file).read_bytes())
    phases |= made_scripts(file) | compact_scripts(file, size) | {"algebra": algebra_script()}
    for name, lines in phases.items():
        write_script(folder / f"{name}.script", lines)
    size, count, edits = (MEGABYTE // 8, 100, 1000) if quick else (MEGABYTE, 1000, 20000)
    text, words = prose(size)
    (folder / "prose").write_bytes(text)
    write_script(folder / "versions.script", versions_script("prose", size, words, count))
    write_script(folder / "listall.script", listed_versions_script("prose", size, words, count))
    write_script(folder / "marked.script", marked_script("prose", size, words, count))
    write_script(folder / "marks.script", marks_script(count))
    collections = {
        "versions_files": shifted_versions(text[:100_000], 20 if quick else 200),
        "mutated_genomes": mutated_genomes(genome(50_000, seed=9), 10 if quick else 100),
    }
    for name, texts in collections.items():
        for script, lines in collection_scripts(folder, name, texts).items():
            write_script(folder / f"{script}.script", lines)
    (folder / "records").write_bytes(records(size))
    write_script(folder / "gaps.script", gaps_script())
    write_script(folder / "fields.script", fields_script())
    write_script(folder / "words.script", words_script(words, 270))
    text, lines = compositions_script("chance", size // 4)
    (folder / "chance").write_bytes(text)
    write_script(folder / "compositions.script", lines)
    (folder / "genome").write_bytes(genome(size))
    write_script(folder / "genome.script", genome_script("genome", size, edits))
    write_script(folder / "long.script", long_script())


def write_script(file, lines):
    file.write_text("".join(line + "\n" for line in lines))


def main():
    reader = argparse.ArgumentParser(description=__doc__, formatter_class=argparse.RawDescriptionHelpFormatter)
    reader.add_argument("--quick", action="store_true")
    reader.add_argument("--huge", action="store_true")
    reader.add_argument("--text", type=pathlib.Path, action="append", default=[], metavar="FILE")
    reader.add_argument("folder", type=pathlib.Path)
    asked = reader.parse_args()
    make(asked.folder, asked.quick, asked.huge, asked.text)


if __name__ == "__main__":
    main()
