"""Tests of the tool that writes implementations."""
