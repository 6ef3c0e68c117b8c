"""The tools that a script needs: installed where they are missing and that may be done, else said."""
from __future__ import annotations

import os
import shutil
import subprocess
from collections.abc import Mapping


def lacking(tools: Mapping[str, str]) -> dict[str, str]:
    """The tools of these that are not on PATH, with the Debian packages of each, between blanks."""
    return {tool: package for tool, package in tools.items() if not shutil.which(tool)}


def provide(tools: Mapping[str, str]) -> list[str]:
    """Installs what is missing, as root on a machine with apt-get. What is missing then, each with how to get it."""
    missing = lacking(tools)
    if missing and os.geteuid() == 0 and shutil.which("apt-get"):
        packages = [*dict.fromkeys(" ".join(missing.values()).split())]
        print(f"apt-get install {' '.join(packages)}", flush=True)
        quiet = {"stdout": subprocess.DEVNULL, "stdin": subprocess.DEVNULL, "check": False, "env": {**os.environ, "DEBIAN_FRONTEND": "noninteractive"}}
        subprocess.run(["apt-get", "update", "-qq"], **quiet)
        subprocess.run(["apt-get", "install", "-qq", "-y", "--no-install-recommends", *packages], **quiet)
    return [f"{tool} is missing (Debian: sudo apt-get install {package})" for tool, package in lacking(tools).items()]
