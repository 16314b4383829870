"""What the tools share: how they start the program and speak with it, read and write tables, and end.

A tool imports this first. From then on Ctrl-C says that it stopped, also where nothing else catches it, and the package
`nipakeel` is found, which the tools speak with the program by. In the repository it is in clients/python/src. Where the
tools are installed without that, it is beside this package.
"""

import os
import pathlib
import sys

INTERRUPTED = 130
CLIENT = pathlib.Path(__file__).resolve().parents[2] / "clients/python/src"

if CLIENT.is_dir():
    sys.path.insert(0, str(CLIENT))


def tells_stop(kind, error, trace):
    if not issubclass(kind, KeyboardInterrupt):
        sys.__excepthook__(kind, error, trace)
        return
    tool = "/".join(sys.argv[0].split("/")[-2:])
    print(f"{tool}: stopped", file=sys.stderr, flush=True)
    os._exit(INTERRUPTED)


sys.excepthook = tells_stop
