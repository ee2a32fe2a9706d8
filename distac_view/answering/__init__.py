"""Answers to operators' questions: lost nodes, rolling restarts, load, splits, and the changes by a new file."""
