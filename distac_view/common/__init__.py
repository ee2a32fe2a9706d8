"""Shared parts: texts, names, places in files, standard output, and atomic writes of files."""
