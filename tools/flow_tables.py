"""The fields of a flow.json and the types of processors, as docs/flow.schema.json and docs/PROCESSORS.md have them."""

import dataclasses

TEXT_MAX = 4_194_304
PROCESSORS_MAX, CONNECTIONS_MAX, FAN_OUT_MAX = 256, 1_024, 8
OWN_NAME_MAX, OWN_PROPERTIES_MAX, ID_MAX = 255, 64, 64
CONTENT_MAX, TAKEN_MAX = 16_777_216, 1_000

PRIORITIZERS = ("FirstInFirstOut", "NewestFlowFileFirst", "OldestFlowFileFirst", "PriorityAttribute")

# What a field may hold: a list of objects, an id, a text, an object, names, at least one name, prioritizers, or a
# number from its least to its most.
PROCESSOR = {"id": "id", "type": "text", "tasks": (1, 16), "penalty": (0, 86_400_000), "properties": "object",
             "terminated": "names"}
CONNECTION = {"id": "id", "from": "text", "to": "text", "relationships": "some names", "prioritizers": "prioritizers",
              "expiration": (0, 2**53), "objects": (0, 2**53), "bytes": (0, 2**53), "swap": (2, 40_000)}
TOP = {"processors": "objects", "connections": "objects"}
REQUIRED = ("processors", "connections", "id", "type", "from", "to", "relationships")


@dataclasses.dataclass
class Property:
    """What a property's text may be: a pattern, an expression, a search, any text, one of some words, or a number from
    its least to its most. One without a default is required."""
    form: object
    default: str | None = None


@dataclasses.dataclass
class Type:
    """The properties of a type, what a property of a processor's own is (none, an attribute's or a relationship's
    expression or pattern), and its relationships besides those."""
    properties: dict
    relationships: tuple
    own: str | None = None
    source: bool = False

    @property
    def own_is_relationship(self):
        return self.own in ("expression of a relationship", "pattern of a relationship")


TYPES = {
    "GetFile": Type({"File Filter": Property("pattern", "[^.].*")}, ("success",), source=True),
    "GenerateFlowFile": Type({"Count": Property((0, 1_000_000)), "Custom Text": Property("expression", "")},
                             ("success",), source=True),
    "PutFile": Type({"Conflict Resolution Strategy": Property(("replace", "ignore", "fail"), "fail")},
                    ("success", "failure")),
    "UpdateAttribute": Type({}, ("success", "failure"), "expression of an attribute"),
    "RouteOnAttribute": Type({}, ("unmatched",), "expression of a relationship"),
    "AttributesToJSON": Type({"Attributes List": Property("text", ""),
                              "Destination": Property(("flowfile-attribute", "flowfile-content"),
                                                      "flowfile-attribute")},
                             ("success", "failure")),
    "DuplicateFlowFile": Type({"Number of Copies": Property((1, 999), "100")}, ("success",)),
    "CryptographicHashContent": Type({}, ("success", "failure")),
    "SplitText": Type({"Line Split Count": Property((1, 1_000_000_000))}, ("original", "splits", "failure")),
    "ReplaceText": Type({"Replacement Strategy": Property(("Regex Replace", "Literal Replace"), "Regex Replace"),
                         "Replacement Value": Property("text"), "Search Value": Property("search")},
                        ("success", "failure")),
    "ExtractText": Type({}, ("matched", "unmatched"), "pattern of an attribute"),
    "RouteOnContent": Type({"Match Requirement": Property(("content must match exactly", "content must contain match"),
                                                          "content must match exactly")},
                           ("unmatched",), "pattern of a relationship"),
    "MergeContent": Type({"Maximum Number of Entries": Property((1, TAKEN_MAX), "1000"),
                          "Merge Strategy": Property(("Bin-Packing Algorithm", "Defragment"), "Bin-Packing Algorithm"),
                          "Minimum Number of Entries": Property((1, TAKEN_MAX), "1")},
                         ("merged", "original", "failure")),
    "SegmentContent": Type({"Segment Size": Property((1, CONTENT_MAX))}, ("segments", "original", "failure")),
    "ModifyBytes": Type({"End Offset": Property((0, CONTENT_MAX), "0"),
                         "Start Offset": Property((0, CONTENT_MAX), "0")}, ("success",)),
}

