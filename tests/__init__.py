"""The tests of the program; run.py runs them, and ../test calls it."""
