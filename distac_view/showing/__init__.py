"""Answers as text, as JSON and as pages."""
