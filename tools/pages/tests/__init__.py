"""Tests of the pages that a reader types along."""
