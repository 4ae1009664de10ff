"""vectors/reference as a module. It finds the records of a type or of a chain by an index, without reading all records each time."""

from typing import Any

from dev.testing import script

Record = dict[str, Any]
MOST_INDICES = 64

reference = script("vectors/reference")
plain_of_type = reference.of_type
indices: dict[tuple[int, int], tuple[list[Record], dict[tuple[object, ...], list[Record]]]] = {}


def of_type(records: list[Record], rtype: str, **wanted: object) -> list[Record]:
    """The records of a type that have these values, in their order."""
    if set(wanted) - {"TLID"}:
        found: list[Record] = plain_of_type(records, rtype, **wanted)
        return found
    if len(indices) > MOST_INDICES:
        indices.clear()
    # The list is kept too, so that no other one gets its id.
    _, index = indices.setdefault((id(records), len(records)), (records, {}))
    for record in [] if index else records:
        for key in ((record["type"],), (record["type"], record.get("TLID"))):
            index.setdefault(key, []).append(record)
    return list(index.get((rtype, *wanted.values()), []))


reference.of_type = of_type
