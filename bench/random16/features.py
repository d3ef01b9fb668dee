# The features that a program can have. The generator takes down those of its spelling and declarations, the interpreter what it came to while it
# ran.
KINDS = ("bit", "bool", "header", "stack", "struct")
GROUPS = {
    "spelling": [
        "operators side by side without parentheses", "number without a width", "number that isn't decimal digits alone",
        "blanks and comments of all sorts",
    ],
    "program": [
        "object at the top", "control at two places of main", "declarations in any order", "action with parameters of both sorts",
        "action of a table that others may call", "@name",
    ],
    "scope": ["name that hides another", "of the declaration, not of the call"],
    "variable": KINDS,
    "parameter": ["%s %s" % (direction, kind) for direction in ("in", "out", "inout") for kind in KINDS] + ["plain bit", "plain bool"],
    "assignment": ["header", "stack", "struct", "error", "slice"],
    "operator": ["+", "-", "*", "|+|", "|-|", "&", "|", "^", "<<", ">>", "++"],
    "expression": [
        "choice of headers, stacks or structs", "hit or miss of a table", "comparison of bits", "comparison of bool", "comparison of error",
        "cast of a truth value", "slice of what is no place",
    ],
    "parser": ["accept", "reject", "lookahead", "PacketTooShort", "StackOutOfBounds", "NoMatch"],
    "extract": ["member", "name", "element", "next", "last"],
    "select": [
        "several keys", "no case", "any", "equal", "mask", "range", "key that is bits", "key that is bool", "key that is error",
    ],
    "header or stack": ["setValid", "setInvalid", "push_front", "pop_front"],
    "emit": ["header", "stack"],
    "table": ["in " + block for block in ("verify", "ingress", "egress", "compute", "deparser")] + [
        "again in the same block", "several entries fit", "default of the entries", "default of the program", "miss without an action",
    ] + ["hit by a key that is " + kind for kind in ("exact", "ternary", "lpm", "range", "bool")],
    "switch": ["label", "default", "neither", "label twice"],
    "action": ["called"],
    "object": [
        "counter, count", "direct_counter, count", "count of an entry", "register, read", "register, write", "meter, execute_meter",
        "used in two blocks",
    ],
    "call": [
        "hash", "mark_to_drop", "verify_checksum", "verify_checksum_with_payload", "update_checksum", "update_checksum_with_payload",
        "clone_preserving_field_list", "resubmit_preserving_field_list", "recirculate_preserving_field_list",
    ],
    "sum": ["csum16", "crc16", "crc32", "identity", "not that of the packet"],
    "pass": ["of instance type %d" % kind for kind in (0, 1, 2, 4, 6)] + ["dropped in egress", "cut by the bound"],
    "preserved": [
        "field of the metadata", "field of a member struct", "not by the mark of the member struct", "not without a mark",
    ],
}
FEATURES = ["%s: %s" % (group, feature) for group, features in GROUPS.items() for feature in features]
