"""Questions in time: each reads the text of `joint` in pieces, and looks at the rows that it asks
of alone.

May use: call, recording."""
