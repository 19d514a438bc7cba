"""Worked cases of statements and of parts, which worked_cases.py tries."""
