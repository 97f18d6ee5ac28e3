"""What is made of what the program says by `--help` (tests/house/words.py), of the second office's
tables (tests/house/openapi.py) and of crates.txt (tools/drawing.py).

    help.py           the help, read
    manual.py         the manual page
    shells.py         the completions of bash, zsh and fish
    description.py    the description of the HTTP interface
    picture.py        the picture of the layers
"""
