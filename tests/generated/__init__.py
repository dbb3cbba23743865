"""Rows that are made: random requests, great numbers of whatever is counted, and bytes that are changed."""
