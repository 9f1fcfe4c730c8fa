"""Stands in for the system's log: writes what is sent to the socket of the first word, a line each."""

import socket
import sys

log = socket.socket(socket.AF_UNIX, socket.SOCK_DGRAM)
log.bind(sys.argv[1])
while True:
    print(log.recv(65536).decode(errors="replace"), flush=True)
