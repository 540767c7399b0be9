"""Tests of what `tools/picture` and `tools/playground` are made of."""
