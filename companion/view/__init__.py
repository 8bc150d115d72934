"""A log as one page: its data, and what the browser runs, which lies in page/.

May use: call, recording, why, questions."""
