"""Checks documents, writes lists, and finds the places of a name."""
