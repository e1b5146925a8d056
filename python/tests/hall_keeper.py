"""Starts halls for test_hall_store.py, which kills them: a fork each, as starting Python is slow.

    python3 hall_keeper.py SESSION

Each line on standard input is a command, answered by a line: `start LIMIT` forks a process that
serves the session, whose files may grow to LIMIT bytes (0: as they like), and says its port and how
many bytes of an unfinished line it dropped; `kill` ends it by SIGKILL. At the end of the input the
last one is ended too.
"""

from __future__ import annotations

import os
import resource
import signal
import sys

from halls import CLASS, PATIENCE
from reference_engine.hall.application import Application
from reference_engine.hall.hall import Hall
from reference_engine.hall.server import Server


def serve(path: str, limit: int, port_to: int) -> None:
    """Serves the session, and never returns."""
    if limit:
        resource.setrlimit(resource.RLIMIT_FSIZE, (limit, limit))
    hall = Hall(path, CLASS)
    server = Server(("127.0.0.1", 0), Application(hall), PATIENCE)
    dropped = len(hall._file.dropped)
    os.write(port_to, f"{server.server_address[1]} {dropped}\n".encode())
    os.close(port_to)
    server.serve_forever()


def ended(child: int) -> int:
    """Kills a process, and gives its exit status."""
    os.kill(child, signal.SIGKILL)
    return os.waitstatus_to_exitcode(os.waitpid(child, 0)[1])


def main(path: str) -> None:
    child = 0
    for command in sys.stdin:
        words = command.split()
        if words[0] == "kill":
            print(ended(child), flush=True)
            child = 0
            continue
        port_from, port_to = os.pipe()
        child = os.fork()
        if child == 0:
            os.close(port_from)
            try:
                serve(path, int(words[1]), port_to)
            finally:
                os._exit(1)
        os.close(port_to)
        with os.fdopen(port_from) as said:
            print(said.readline().strip(), flush=True)
    if child:
        ended(child)


if __name__ == "__main__":
    main(sys.argv[1])
