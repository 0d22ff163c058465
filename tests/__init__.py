"""The tests of the program, of its helpers and of the sources, for Python's unittest (tests/README.md)."""
