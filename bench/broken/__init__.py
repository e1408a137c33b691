"""Closed solids broken in known ways, and judges of what is said of them, for bench/remedies. They share no code with the programs or with the second checker."""
