"""Orders of harts: the searches `seeds` and `shrink`, `again` after a BOOK, and whether a later
build still crashes (`recheck`).

May use: call, recording, why, questions."""
