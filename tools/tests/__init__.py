"""Tests of tools, beside those that tools have themselves."""
