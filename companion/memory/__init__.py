"""Memory errors of a recorded run, by definition: what pointers were made for, and the state of
each byte, along the rows.

May use: call, recording."""
