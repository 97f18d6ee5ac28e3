"""An office in Python, written from the rules alone: a request in, the bytes of its answer out.

It shares nothing with the program but docs/PLANS.md, docs/HTTP.md, docs/COMMANDS.md,
docs/FILE-FORMAT.md and the definitions in crates/*/specs, and is slow and plain on purpose: a draft
is a whole set, a lane a list with an entry for each second, what is on hand a sum over all records.
tools/draw_rows.py makes rows of what it answers, and tests/program/second_office.py holds it
against the program, and tests/program/lives.py does so over files.

    fields.py     numbers, days, words and codes, as rows, paths and bodies spell them; CSV
    plan.py       rows of a timing plan, and their one spelling
    rules.py      V1 to V14, and the list of violations
    register.py   inspections, orders, used parts, deliveries; stock; who is overdue
    office.py     the commands, the transaction's table, imports
    wire.py       routes, faults, and answers to the letter
    commands.py   what commands of the program do to an office, step by step
    program.py    the program: the words of a command in, its status and what it prints out
    checking.py   records that are tried and not taken
    comparing.py  what two plans differ in
    listings.py   lists, the sheet of a plan, the register of a cabinet
    hints.py      what is wrong with a bad record of a plan
    padded.py     records as spreadsheets leave them
    reasons.py    why a plan breaks the rules
    warnings.py   what an engineer is warned of
    pictures.py   pictures of patterns
    pages.py      pages of intersections and plans, with the style in page.css
    tables.py     the rows that are kept in a file, today and in version 1
    heads.py      requests as bytes, and how a stream may end
    planning.py   plans that are drawn, and changes of them
    requests.py   requests that are drawn, with some sense
    asking.py     commands that are drawn, with their files
    damage.py     a row that is no record, and which commands read it
    tally.py      what was drawn, and what came
    rows.py       row files
"""
