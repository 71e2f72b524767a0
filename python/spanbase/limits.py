"""The limits of the program, as docs/LANGUAGE.md has them."""

__all__ = [
    "DEEPEST",
    "FEWEST_STATES",
    "LONGEST_FILE",
    "LONGEST_FORMULA",
    "LONGEST_IMAGE",
    "LONGEST_LINE",
    "LONGEST_NAME",
    "LONGEST_SCRIPT",
    "MOST_LISTED",
    "MOST_SETS",
    "MOST_STATES",
    "MOST_VARIABLES",
    "WIDEST_SHOW",
]

# bytes of a line of a script, and of a script
LONGEST_LINE = 1 << 16
LONGEST_SCRIPT = 1 << 24
# bytes of a name, and of a formula
LONGEST_NAME = 64
LONGEST_FORMULA = 2048
# bytes of a file that is loaded, and of an image that is opened
LONGEST_FILE = 1 << 32
LONGEST_IMAGE = 1 << 30
# bytes that `show` shows, and answers that `list` lists
WIDEST_SHOW = 4096
MOST_LISTED = 10_000
# byte sets and variables of a formula, and the groups and captures that are open at once in it
MOST_SETS = 512
MOST_VARIABLES = 8
DEEPEST = 64
# what the states of a query can be limited to: the limit without an option, and the greatest one
FEWEST_STATES = 128
MOST_STATES = 1024
