"""The tables of explanations (tests/test_explain.py): rows, tries of other shifts, and sentences."""
