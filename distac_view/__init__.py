"""Tools for the users of `distac`: they locate faults, show the course of scripts, and predict the effects of lost
nodes.

It runs `distac` for every decision and contains no rule of its own.
"""
