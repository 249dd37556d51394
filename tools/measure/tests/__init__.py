"""Tests of pse52-measure. `python3 -m unittest discover -s tools/measure/tests -t tools` runs them."""
