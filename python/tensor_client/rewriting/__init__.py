"""Rewrites an expression before a request asks for it: binds parts that are used several times, reverses
axes over arrays in C order, and replaces operations along one axis in texts."""
