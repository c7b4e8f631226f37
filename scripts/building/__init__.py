"""Builds programs and the library of this repository without proving them, for the scripts beside this folder."""
