"""Ordinary C, stage 1: names of types, enumerations, structs, arrays of arrays, designators, static locals (C11, docs/ORDINARY.md).

A second opinion on what a source of ordinary C means, written from C11 apart from every other program of the repository but the
profile's evaluator, of which it has the tokens, the numbers' operators and the forms of pragmas.
"""
from .program import answer, program_of

__all__ = ["answer", "program_of"]
