"""Which names are there when a build begins: what came before it in the same recording, such as another make, has made and removed some."""

from typing import Dict, List, Tuple

from record.trace.events import CREATED, FOLDER_REMOVED, MADE, REMOVED

Change = Tuple[int, str, str]  # the place in the trace, the kind of event, the path
KINDS = {CREATED: "f", MADE: "d", REMOVED: "", FOLDER_REMOVED: ""}  # what stands there behind an event  # guard: folders-that-are-moved


class Past:
    """The names that are there at a place of the trace; it is asked for later and later places, or else begins anew."""

    def __init__(self, before: Dict[str, str], changes: List[Change]) -> None:
        self.before, self.changes = before, changes
        self.now, self.at, self.place = dict(before), 0, 0

    def until(self, place: int) -> Dict[str, str]:
        """All names and their kinds at a place. The answer holds until the next question."""
        if place < self.place:  # guard: what-was-made-in-earlier-place
            self.now, self.at = dict(self.before), 0
        self.place = place
        while self.at < len(self.changes) and self.changes[self.at][0] < place:
            _, kind, path = self.changes[self.at]
            name = path.rstrip("/")
            found = "d" if name != path else KINDS[kind]
            if not found:
                self.now.pop(name, None)  # guard: what-earlier-makes-removed
            elif found == "d" or name not in self.now:  # guard: folders-that-make-above-made
                self.now[name] = found
            self.at += 1
        return self.now
