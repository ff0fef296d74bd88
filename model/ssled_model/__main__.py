"""The command line: the same words, bytes and statuses as ssled."""

import os
import sys

from .run import Job, deep


class FileShelf:
    """Files of the system, under their names as they are."""

    def fetch(self, name, most):
        out = b""
        try:
            with open(name, "rb", buffering=0) as f:
                while len(out) < most:
                    piece = f.read(most - len(out))
                    if not piece:
                        break
                    out += piece
        except (OSError, ValueError):
            return None
        return out

    def keep(self, name, data):
        try:
            with open(name, "wb", buffering=0) as f:
                at = 0
                while at < len(data):
                    n = f.write(data[at:])
                    if not n:
                        return False
                    at += n
        except (OSError, ValueError):
            return False
        return True


class OutSink:
    """Standard output."""

    def put(self, piece):
        at = 0
        try:
            while at < len(piece):
                n = os.write(1, piece[at:])
                if n == 0:
                    return False
                at += n
        except OSError:
            return False
        return True


def main():
    words = sys.argv[1:]
    try:
        for w in words:
            w.encode("utf-8")
    except UnicodeEncodeError:
        return 8
    try:
        return deep(lambda: Job(FileShelf(), OutSink()).run(words))
    except MemoryError:
        return 1


if __name__ == "__main__":
    sys.stdout = None
    sys.exit(main())
