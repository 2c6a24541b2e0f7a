"""Counts what a source does on some inputs, and says which annotations would say so."""
