"""Which expressions never raise, whatever stands in a row: these alone are computed as an application writes, since no writer may meet a fault. All others
are computed when they are read, from the columns in them, as the view itself computes them."""

from __future__ import annotations

import re

from . import tree
from .asked import Judged
from .tree import Node

# What functions are in the server, by families: comparisons of all types, and what has a value for each.
TYPES = (
    r"(?:bool|int[248]|int[248][248]|float[48]|float[48][48]|numeric_?|text_?|bpchar|name|nametext|textname|char|date_?|time_?|timestamp_?|timestamptz_?"
    r"|interval_?|uuid_?|enum_?|network_?|oid|bytea|array_|jsonb_?|macaddr_?|bit|xid8?|range_|pg_lsn_?)"
)
COMPARED = re.compile(TYPES + r"(?:eq|ne|lt|le|gt|ge)(?:_timestamp|_timestamptz|_date)?$|btn?\w*cmp$|booleq|boolne")
TOTAL = frozenset(
    """
    lower upper initcap btrim btrim1 ltrim ltrim1 rtrim rtrim1 textlen bpcharlen textoctetlen bpcharoctetlen text_left text_right text_reverse text_starts_with
    textcat textlike textnlike bpcharlike bpcharnlike namelike namenlike texticlike texticnlike bpchariclike bpcharicnlike textpos replace_text md5_text
    rtrim1 bpchar_name name_bpchar name_text text_name text_bpchar bpchar char_text text_char
    i2toi4 int28 int48 int2_numeric int4_numeric int8_numeric i2tod i4tod i8tod ftod bool_int4 int4_bool
    numeric_add numeric_sub numeric_mul numeric_uminus numeric_abs numeric_sign numeric_round numeric_trunc numeric_ceil numeric_floor numeric_uplus
    numeric_smaller numeric_larger numeric_scale numeric_trim_scale
    timestamp_trunc timestamptz_trunc_zone extract_date extract_timestamp extract_time extract_interval timestamp_part timestamp_date timestamp_zone timestamptz_zone
    date_timestamp timestamptz_izone timestamp_izone interval_part extract_timestamptz
    jsonb_object_field jsonb_object_field_text jsonb_array_element jsonb_array_element_text jsonb_extract_path jsonb_extract_path_text jsonb_exists
    jsonb_exists_any jsonb_exists_all jsonb_contains jsonb_contained jsonb_typeof json_object_field json_object_field_text json_array_element
    json_array_element_text json_extract_path json_extract_path_text
    arraycontains arraycontained arrayoverlap array_length array_cardinality array_upper array_lower
    network_host network_masklen network_family inet_abbrev text_substr_no_len date_cmp enum_out textin
    """.split()
)
DIVIDED = frozenset("numeric_div numeric_mod int2div int4div int8div int24div int42div int28div int82div int48div int84div int2mod int4mod int8mod".split())
MATCHED = frozenset("textregexeq textregexne texticregexeq texticregexne bpcharregexeq bpcharregexne".split())
CUT = frozenset("text_substr".split())


def constant(node: Node) -> Node | None:
    """The constant that an expression is, under its casts."""
    while tree.kind(node) == "TypeCast":
        node = node.arg
    return node if tree.kind(node) == "A_Const" and not node.isnull else None


def number_of(node: Node) -> float | None:
    """The number that an expression is, or None."""
    found = constant(node)
    if found is None:
        return None
    said = getattr(found.val, "ival", None)
    said = said if said is not None else getattr(found.val, "fval", None) or getattr(found.val, "sval", None)
    try:
        return float(said) if said is not None else 0.0
    except (TypeError, ValueError):
        return None


def divides_by_constants(node: Node) -> bool:
    """Whether each division is by a number that is written and more than nothing."""
    divided = [each for each in tree.found(node, "A_Expr") if tree.operator(each) in ("/", "%")]
    called = [each for each in tree.found(node, "FuncCall") if tree.function_name(each) in ("mod", "div", "numeric_div")]
    return not called and all((number_of(each.rexpr) or 0) > 0 for each in divided)


def matches_constants(node: Node) -> bool:
    """Whether each pattern is a text that is written."""
    matched = [each for each in tree.found(node, "A_Expr") if each.name[-1].sval in ("~", "!~", "~*", "!~*", "~~", "!~~", "~~*", "!~~*")]
    return all(constant(each.rexpr) is not None for each in matched)


def cuts_by_constants(node: Node) -> bool:
    """Whether each piece of a text begins and ends where it is written."""
    called = [each for each in tree.found(node, "FuncCall") if tree.function_name(each) in ("substring", "substr")]
    return all((number_of(given) or 0) >= 0 and constant(given) is not None for each in called for given in each.args[1:])


def is_total(node: Node, judged: Judged) -> bool:
    """Whether an expression has a value for each row, or is NULL."""
    if judged.raises or not matches_constants(node):
        return False
    left = {said for said in judged.called if said not in TOTAL and not COMPARED.match(said)}
    if divides_by_constants(node):
        left -= DIVIDED
    if cuts_by_constants(node):
        left -= CUT
    return not left - MATCHED
