"""Packages of Debian for the tools of this folder: unpacked below a temporary folder, and never installed."""

import subprocess

CANNOT_ASK = 7


class CannotAsk(Exception):
    """Why a package can't be had or built."""


def run(words, place, what):
    """Runs a command there, or tells the last line of what it says."""
    done = subprocess.run(words, cwd=place, stdin=subprocess.DEVNULL, capture_output=True, text=True)
    if done.returncode != 0:
        raise CannotAsk("%s: %s" % (what, (done.stderr.strip().splitlines() or ["?"])[-1]))


def unpack(names, place):
    """The folder below which the files of these packages stand, as they would below /."""
    packed = place / "packages"
    packed.mkdir()
    run(["apt-get", "-q", "download", *names], packed, "apt-get download")
    for path in sorted(packed.glob("*.deb")):
        run(["dpkg", "-x", path.name, str(place / "root")], packed, "dpkg")
    return place / "root"
