"""The definitions as a program, function for function, and programs of their own beside it: see README.md."""
