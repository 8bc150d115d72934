"""The words of a call, how it ends, and what every companion needs of the system: options, texts,
streams, saved files, children, the program. `words` has the list of the companions.

May use: nothing else, but that `words` finds each companion's module."""

import os

# The folder that is run, and is the package
PACKAGE = os.path.dirname(os.path.dirname(os.path.abspath(__file__)))
