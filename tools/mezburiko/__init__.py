"""Graphs of document 01 for people: as text, in words and as pictures."""
