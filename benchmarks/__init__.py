"""Benchmark circuits of the field, generated, and the table of what the program makes of them.

    python3 -m benchmarks generate FOLDER         writes the circuits
    python3 -m benchmarks table                   measures, and prints the tables

`README.md` beside this file says more. This package stands outside of the proved program.
"""
