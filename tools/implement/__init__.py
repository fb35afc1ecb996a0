"""Writes implementations of Described and Allocative for the types of a Rattle source file."""
