"""Tests of the explanation of faults."""
