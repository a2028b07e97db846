"""A second implementation, in plain Python, of what docs/FORMATS.md and docs/DEFINITIONS.md say.

It was written from these two documents and shares nothing with the program; the scripts beside this
folder compare the program with it. It is slow and is meant for small inputs.
"""
