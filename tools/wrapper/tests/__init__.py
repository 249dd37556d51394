"""Tests of bin/pse52."""
