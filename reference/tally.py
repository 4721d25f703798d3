"""Items to be reached, and how often they are."""

from __future__ import annotations

from dataclasses import dataclass
from typing import Any, Callable


@dataclass
class Item:
    """One thing to be reached; holds() judges a case of the item's kind."""

    group: str
    name: str
    holds: Callable[[Any], bool]
    count: int = 0


ITEMS: list[Item] = []


class Kind:
    """The items that are judged by the same sort of case."""

    def __init__(self) -> None:
        self.items: list[Item] = []

    def add(self, group: str, name: str, holds: Callable[[Any], bool]) -> None:
        item = Item(group, name, holds)
        self.items.append(item)
        ITEMS.append(item)

    def count(self, case: Any) -> None:
        for item in self.items:
            if item.holds(case):
                item.count += 1
