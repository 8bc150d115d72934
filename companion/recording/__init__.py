"""Reading a recording: the log, the rows of `joint` and `replay`, the ELF file, lines of addresses,
sources that may be shown.

May use: call."""
