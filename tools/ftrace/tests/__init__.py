"""Tests of the converter of ftrace text."""
