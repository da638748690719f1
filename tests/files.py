"""The files of the repository, by their path from its root."""

import os

ROOT = os.path.dirname(os.path.dirname(os.path.abspath(__file__)))


def whole(path):
    return os.path.join(ROOT, path)


def contents(path):
    """The bytes of a file."""
    with open(whole(path), "rb") as file:
        return file.read()


def text(path):
    return contents(path).decode("utf-8")
