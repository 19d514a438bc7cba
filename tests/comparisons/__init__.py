"""What differential.py compares, case by case: runs of the program beside what the oracle says, by what they are about."""
