"""Rows that go from where they are kept to a server, as they stand in its tables, a piece at a time."""

from __future__ import annotations

from typing import TYPE_CHECKING

from ..finding import Failure
from .servers import Given
from .status import FAILED

if TYPE_CHECKING:
    from collections.abc import Iterable, Iterator

    from ..sql.slots import Slots, Slot
    from .servers import Server
    from .warehouse import Warehouse

# So many bytes go over in one INSERT.
PIECE = 2**22


def pieces(lines: Iterable[bytes]) -> Iterator[list[bytes]]:
    """Lines in pieces that go over together."""
    piece, size = list[bytes](), 0
    for said in lines:
        piece.append(said)
        size += len(said)
        if size >= PIECE:
            yield piece
            piece, size = [], 0
    if piece:
        yield piece


class Pouring:
    """Puts rows into a slot."""

    def __init__(self, warehouse: Warehouse, slot: Slot) -> None:
        self.warehouse, self.slot = warehouse, slot
        self.script: Slots = warehouse.script(slot=slot)

    def pour(self, v: int, lines: Iterable[bytes], server: Server, is_dealt: bool = False) -> None:
        """The rows of a view into a server's slot, or dealt out among all by it; each line once. What stands there then is counted."""
        if is_dealt and self.script.replication:
            return self.deal(v, lines)
        types, sent = ",".join(map(self.warehouse.written, self.script.poured_types(v))), 0
        for piece in pieces(lines):
            said = self.warehouse.written(self.script.poured(v, sent, is_dealt).said)
            token = self.warehouse.token(self.slot.number, f"pour {v} {sent}")
            server.carried(said, Given(types, b"".join(piece)), token)
            sent += len(piece)
            if (stand := self.standing(v, server, is_dealt)) != sent:
                name = self.warehouse.catalogue.views[v].name
                told = f"{stand} rows of {name} stand in slot {self.slot.number} by {server}, and {sent} were sent: something on the way keeps some back"
                raise Failure(FAILED, f"whview cluster: {told}; nothing is changed")

    def deal(self, v: int, lines: Iterable[bytes]) -> None:
        """The rows of a view, of which each server takes those that are its shard's."""
        types, sent, servers = ",".join(map(self.warehouse.written, self.script.poured_types(v))), 0, self.warehouse.servers
        for piece in pieces(lines):
            given, token = Given(types, b"".join(piece)), self.warehouse.token(self.slot.number, f"pour {v} {sent}")

            def taken(server: Server, given: Given = given, token: str = token) -> int:
                said = self.script.poured(v, self.standing(v, server, True), True).said
                server.carried(self.warehouse.written(said), given, token)
                return self.standing(v, server, True)

            sent += len(piece)
            if (stand := sum(servers.each(taken))) != sent:
                name = self.warehouse.catalogue.views[v].name
                told = f"{stand} rows of {name} stand in slot {self.slot.number}, and {sent} were sent: something on the way keeps some back"
                raise Failure(FAILED, f"whview cluster: {told}; nothing is changed")

    def standing(self, v: int, server: Server, is_dealt: bool) -> int:
        """How many rows of a view stand in the slot."""
        return int(server.asked(self.warehouse.written(self.script.stand(v, is_dealt)))[0][0])
