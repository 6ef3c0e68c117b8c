"""Where files are: below a folder, or where they come with the system. A project may be below `/usr/src`, `/usr/local` or `/dev/shm`: what is there belongs to no system."""

import re

OF_SYSTEM = re.compile(r"/(?:(?:usr/(?:local/)?)?(?:bin|sbin|lib(?:32|64|x32|exec)?|include|share)|etc|proc|sys|dev(?!/shm/))(?:/|$)")
SETTINGS = re.compile(r"/(?:proc/)?sys/")  # of the kernel: who changes one may change what any process sees


def is_below(path: str, folder: str) -> bool:
    """Whether a path is a folder or below it."""
    return path == folder or path.startswith(folder.rstrip("/") + "/")
