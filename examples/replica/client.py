#!/usr/bin/env python3
"""Sends commands to a replica and prints its replies.

    client.py PORT '[["put","a",5],["get","a"]]' ..    each word is a command
    client.py PORT                                     each line of standard input is one
"""

import socket
import sys


def main():
    if len(sys.argv) < 2 or sys.argv[1] in ("-h", "--help"):
        print(__doc__.strip())
        return
    try:
        with socket.create_connection(("127.0.0.1", int(sys.argv[1]))) as connection:
            replies = connection.makefile("r")
            for command in sys.argv[2:] or sys.stdin:
                connection.sendall(f"{command.rstrip()}\n".encode())
                reply = replies.readline()
                if not reply:
                    sys.exit("client.py: the replica ended; the command may be executed")
                print(reply, end="", flush=True)
    except ConnectionError as error:
        sys.exit(f"client.py: no replica answers at port {sys.argv[1]}: {error.strerror}")


if __name__ == "__main__":
    main()
