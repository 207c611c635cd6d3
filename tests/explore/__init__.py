"""Tests of explore. A script NAME.explore is run with the words in NAME.args, and must write
NAME.expected."""
