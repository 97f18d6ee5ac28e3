"""The program held against the second office (`model`), byte for byte, by
tests/program/second_office.py.

    requests.py   drawn requests, and the worked rows that the model can answer
    plans.py      drawn plans: violations, reasons, warnings, pictures
    texts.py      all that commands print over drawn offices and drawn CSV files
    printed.py    each text that the program prints, with the test that compares it
"""
