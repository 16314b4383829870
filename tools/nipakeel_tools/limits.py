"""The limits of the program (clients/python has them), and the files of a store, for what copies them or looks at them."""

from nipakeel.limits import *  # noqa: F403

# The files of a store, whose records are of 64 bytes.
FILES = tuple(f"graph.{number}" for number in range(9))
RECORD = 64
