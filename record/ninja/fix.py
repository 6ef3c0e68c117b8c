"""The fix of a race between build statements, in the words of what wrote the manifest: CMake, Meson, or a person."""

import re
from typing import Any, Dict, List, Tuple

from record.ninja.manifest import Edge, Manifest

CMAKE_OBJECT = re.compile(r"(?:^|/)CMakeFiles/([^/]+)\.dir/")
CMAKE_LINK = re.compile(r"[A-Z]+_(?:EXECUTABLE|STATIC_LIBRARY|SHARED_LIBRARY|MODULE_LIBRARY)_LINKER__(.+)_[A-Za-z]*$")
CMAKE_TARGET = re.compile(r"(?:(?:^|/)CMakeFiles/([^/]+?)(?:\.util)?|cmake_object_order_depends_target_(.+))$")
MESON_OBJECT = re.compile(r"(?:^|/)([^/]+)\.p/")
LIBRARY = re.compile(r"^lib(.+?)\.(?:a|so|dylib)(?:\.[\d.]+)?$")


def cmake_target(edge: Edge, manifest: Manifest) -> str:
    """The target of CMakeLists.txt that a statement belongs to, or the one that was made for what it writes."""
    for path in edge.makes():
        if match := CMAKE_OBJECT.search(path) or CMAKE_TARGET.search(path):
            return match.group(1) or match.group(match.lastindex or 1)
    link = CMAKE_LINK.match(edge.rule)
    return link.group(1) if link else next(iter(cmake_users(edge, manifest, 1)), "")  # guard: target-of-cmake-that-was-made-for-file


def cmake_users(edge: Edge, manifest: Manifest, group: int) -> List[str]:
    """The targets that wait for a statement: those of `add_custom_target` (1), or those that have what it writes among their sources (2)."""
    matches = (CMAKE_TARGET.search(path) for user in manifest.users_of(edge) for path in user.makes())
    return [match.group(group) for match in matches if match and match.group(group)]


def meson_target(edge: Edge) -> str:
    """The target of meson.build that a statement belongs to, by the folder of its objects."""
    matches = filter(None, map(MESON_OBJECT.search, edge.makes()))
    return next((LIBRARY.sub(r"\1", match[1]) for match in matches), "")


def owner_of(edge: Edge, manifest: Manifest) -> Dict[str, str]:
    """What wrote the manifest, the name of the target there, and where a statement of CMake has none, a target that uses what it writes."""
    is_cmake = manifest.top.value("cmake_ninja_workdir") or any(name.endswith("CMakeFiles/rules.ninja") for name in manifest.files)
    by = "cmake" if is_cmake else "meson" if "REGENERATE_BUILD" in manifest.top.rules else ""
    target = cmake_target(edge, manifest) if by == "cmake" else meson_target(edge) if by == "meson" else ""
    user = next(iter(cmake_users(edge, manifest, 2)), "") if by == "cmake" and not target else ""
    return {"by": by, "target": target, **({"user": user} if user else {})}


Owner = Tuple[str, str, str]  # generator, target and user of a statement


def by_cmake(early: Owner, late: Owner, path: str) -> Tuple[Tuple[str, ...], str]:
    """The lines of CMakeLists.txt by which a target waits for another statement, which writes a path, and advice beside them. A target that only
    uses the file may need the target that would wait for it."""
    if early[1] and early[1] != late[1]:
        return ("add_dependencies(%s %s)" % (late[1], early[1]),), ""
    if not early[1] and early[2] not in ("", late[1]):
        name = "make_" + re.sub(r"\W", "_", path.rpartition("/")[2])
        waits = tuple("add_dependencies(%s %s)" % (one, name) for one in (late[1], early[2]))
        return ("add_custom_target(%s DEPENDS %s)" % (name, path), *waits), ""
    return ("target_sources(%s PRIVATE %s)" % (late[1], path),), "name %s among the outputs of the command that writes it" % path


def by_meson(first: str, target: str) -> str:
    """What to write into meson.build so that a target waits for a statement: no line alone does it."""
    return "in meson.build, put the target that makes %s into the sources of '%s'" % (first, target)


def owner(labels: Dict[str, Any], label: str) -> Owner:
    """Generator, target and user of a label."""
    found = labels.get(label, {}).get("owner", {})
    return found.get("by", ""), found.get("target", ""), found.get("user", "")


def pool_text(labels: Dict[str, Any], first: str, second: str) -> str:
    """Where both are in one pool, which may be of one at a time: it promises nothing."""
    pool = labels.get(first, {}).get("pool")
    return "both are in the pool %s, in an order that nothing promises" % pool if pool and pool == labels.get(second, {}).get("pool") else ""  # guard: pools-are-named
