"""Tests of pse52-view. `python3 -m unittest discover -s tools/view/tests -t tools` runs them."""
