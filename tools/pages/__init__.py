"""Runs the commands that stand in the pages of docs/."""
