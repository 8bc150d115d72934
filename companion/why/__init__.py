"""What is known of a crash or a hang, and what follows from it: `why` and `output`, and the signs
of guilt.

May use: call, recording, memory."""
