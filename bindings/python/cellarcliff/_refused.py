"""Why a command is refused, by the names that the pages have."""
from typing import Dict

REFUSALS: Dict[int, str] = dict(enumerate(
    "Full Gone WrongKind PlaceTaken NothingOwed NotRoot NoHub HubOrder Connected NotConnected".split(), 16))
REFUSALS.update(enumerate("NotHeld HasChild TooMany NoLease Leased".split(), 27))
REFUSALS.update({2: "NothingWaits", 3: "Held", 5: "NoSuchCode", 6: "Untaken", 7: "Small", 8: "Cut", 9: "Misuse"})


class Refused(Exception):
    """The engine refuses a command; nothing has changed. `name` says why."""

    def __init__(self, name: str):
        super().__init__(name)
        self.name = name
