"""A second reader, checker and maker of certificates, to compare `igesolid` with. It shares no code with the program.

It goes by the documents alone, and its heart (reading a file, walking a solid, the rules of its shells, checking and making a
certificate) was written by somebody who had seen nothing else of the project than docs/FORMAT.md and docs/CERTIFICATE.md. So where
the two differ, one of them is wrong or a sentence of the documents can be read in two ways. `answer` gives what a command
owes, and `is_owed` compares with it; `python3 tests/second_checker WORDS..` prints it, and ends with its status.
"""
from .answering import answer, is_owed

__all__ = ["answer", "is_owed"]
