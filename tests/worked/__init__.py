"""Worked examples of replays: the lines that come in and the lines that are to answer them.

Each module has the examples of one subject. The wanted answers are spelled case by case from the documents, or
come from the second queue (`played`), which is written from the documents alone. None of them comes from the program.
"""
