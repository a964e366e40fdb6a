"""Tests of the reference model itself, against the paper's own figures."""
