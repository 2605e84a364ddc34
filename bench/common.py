"""What the scripts here share: where this repository and its program are, and a recording that is changed."""
import os
import re

HERE = os.path.dirname(os.path.dirname(os.path.abspath(__file__)))
# The program that ./egl_cli builds.
PROGRAM = os.path.join(HERE, "crates", "egl_main", "out", "egl_main")


def launched():
    """The environment that egl_cli gives the program."""
    with open(os.path.join(HERE, "egl_cli")) as launcher:
        memory = re.search(r"^memory=(\S+)$", launcher.read(), re.MULTILINE).group(1)
    return {"GLIBC_TUNABLES": memory, **os.environ}


def changed(recording, draw):
    """A recording with another byte at one place."""
    place = draw.randrange(len(recording))
    byte = draw.choice([c for c in "0123456789abcdef [],-\n" if c != recording[place]])
    return recording[:place] + byte + recording[place + 1:]
