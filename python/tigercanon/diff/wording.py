"""The words for differences. The finder of the page for browsers has them from here too: page/tables.py takes them there.

{} is a number, a name or a place."""

KINDS = ("only in the first", "only in the second", "changed", "alike")
ONE_MAP = "No differences: the two are one map."
TIED = (
    "All chains, landmarks, polygons and feature names are alike. What differs is how they are joined: which ends of chains are one "
    "node, which sides are one polygon, which chains share a feature name, or which polygons a landmark lies in."
)

NONE, BLANK, YES, NO = "(none)", "(blank)", "yes", "no"

FIELDS = {
    "further name": ("further name {}", "a further name of the chain"),
    "range": ("range {}", "whether there is a further address range"),
    "node": ("{} node", "whether the {} has a node"),
    "side's office": ("CENID{}", "office of the polygon on the {}"),
    "side": ("{} polygon", "the polygon on the {}, by what its record says"),
    "office": ("CENID", "the office that numbers polygons"),
    "record of type P": ("type P", "whether the polygon has a record of type P"),
    "record of type 7": ("record {}", "whether there is a further record of type 7"),
    "area": ("polygon {}", "a polygon that the landmark lies in"),
}
"""The label of each field that isn't a column of a record, and its contents."""

PHRASES = {
    "of range": " of range {}",
    "of record": " of record {}",
    "unnamed chain": "unnamed",
    "unnamed landmark": "unnamed landmark",
    "place": "at {}",
    "place and more": "at {} and {} more",
    "without a place": "without a place",
    "without a record": "without a record of type P",
    "without a point": "without a point",
    "chain": "{} points, from {} to {}",
    "office": "CENID {}",
    "name of one": "FILE {}, a further name of {} chain",
    "name of several": "FILE {}, a further name of {} chains",
    "tie": "one {} in the {}, {} in the {}",
    "place of": "{} of {}",
}
