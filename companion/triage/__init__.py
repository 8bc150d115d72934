"""Many logs: the bucket of each, and the table of all.

May use: call, recording, why."""
