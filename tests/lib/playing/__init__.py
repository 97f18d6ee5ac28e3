"""Row files: the bytes that their lines stand for (`wording`), what they say (`reading`), the runs
of the program that they ask for (`running`), and the ways in which a row is played (`ways`)."""
