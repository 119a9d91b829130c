"""A second engine of whole sessions, to set beside rx.

It is written from the RISC-V unprivileged manual, from ISO C's rules of allocation and from the project's rules of sessions,
recovery, trunk, record and report. It shares nothing with rx: no code, no texts, no way of storing anything.
"""
