"""Tests of pse52-sweep. `python3 -m unittest discover -s tools/sweep/tests -t tools` runs them."""
