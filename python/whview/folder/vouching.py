"""How a version that comes to its end vouches for itself: by a manifest, which is written last, and by the name of its folder."""

from __future__ import annotations

from collections.abc import Iterable, Mapping
from pathlib import Path
from types import MappingProxyType
from typing import TYPE_CHECKING

from ..finding import of_system, warn
from .identity import NONE, Identity, bound, sign, withdraw
from .manifest import FILE, NIGHT, TAKEN_OVER, Entry, Manifest, entries_of, found_manifest, now, who, write_manifest
from .piece_sums import Piece
from .versions import VERSIONS, place, whole

if TYPE_CHECKING:
    from .carried import Night
    from .inputs import Inputs

NO_PIECES: Mapping[str, tuple[Piece, ...]] = MappingProxyType({})
COPIED = "is a copy of another folder, or came from another file system; from now on it goes by a name of its own"


def blank(folder: Identity, number: int, kind: str) -> Manifest:
    """A manifest of a version that is made now, without parent and files."""
    user, host = who()
    return Manifest(folder.name, number, None, "", kind, None, now(), user, host, None, {}, {})


def vouch(part: Path, manifest: Manifest, known: Iterable[Entry] = (), pieces: Mapping[str, tuple[Piece, ...]] = NO_PIECES) -> Manifest:
    """Writes the manifest of a version all other files of which are written through. Of files that it links the sums are `known`, and of
    some others by their names.
    """
    return write_manifest(part, manifest._replace(files=entries_of(part, known, pieces)))


def vouch_for_night(part: Path, number: int, identity: Identity, night: Night, pieces: Mapping[str, tuple[Piece, ...]]) -> None:
    """Writes the manifest of a night's version, of some files of which the pieces are known."""
    inputs = night.folder.inputs
    parent = inputs.state.number
    if parent is None:
        raise ValueError("a night that is kept goes on from a version")
    above = found_manifest(place(inputs.folder, parent))
    made = blank(identity, number, NIGHT)._replace(parent=parent, parent_sum=above.sum if above else "", work=night.work, changes=night.changes)
    vouch(part, made, inputs.vouched.untouched.values(), pieces)


def vouch_for_parent(inputs: Inputs, identity: Identity) -> None:
    """Writes the manifest of the version that a night goes on from, where that is of before there were manifests, and says so. A derived
    view that was written after its night is left out, so that no night goes on from it.
    """
    if inputs.state.number is None or inputs.vouched.manifest or inputs.vouched.fault:
        return
    version, number = inputs.state.root, inputs.state.number
    later = {str(path.relative_to(f"{VERSIONS}/{number}")) for path in inputs.vouched.newer}
    files = {name: entry for name, entry in entries_of(version).items() if name not in later or name.startswith("data/")}
    try:
        write_manifest(version, blank(identity, number, TAKEN_OVER)._replace(files=files))
    except PermissionError as error:
        warn([f"{VERSIONS}/{number} is of before versions had manifests, and gets none: {of_system(error)}"])
        return
    warn([f"{VERSIONS}/{number} is of before versions had manifests: it is taken as it is, and vouches for itself from now on ({FILE})"])


# ---- the folder's name


def with_name(folder: Path, identity: Identity) -> Identity:
    """A folder's identity with a name, which all that a night makes has from its beginning. A copy gets its own, and that is told. As a
    folder gets its first name it is noted up to which version there are no manifests.
    """
    if identity.name:
        return identity
    if identity.is_copy:
        warn([f"{folder} {COPIED}"])
    unvouched = min(identity.unvouched, max(whole(folder, identity), default=NONE))
    return sign(folder, identity._replace(unvouched=unvouched))


def give_up_name(folder: Path, identity: Identity) -> None:
    """Removes the name of a folder that got it for a night that was not kept, where nothing has it."""
    if bound(folder, identity.name) == NONE and not any((folder / VERSIONS).glob(f"*{identity.name}*")):
        withdraw(folder)
