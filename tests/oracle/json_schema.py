"""Checks values of JSON against a JSON Schema (draft 2020-12), by the keywords that `share/explain.schema.json` uses.

It is independent of the code of the product. A schema with any other keyword is refused. If Python has the package
jsonschema, tests/explain compares both.
"""
import re
from typing import Any, Callable, Dict

Schema = Dict[str, Any]
Check = Callable[[Any, Any, Schema, Schema], bool]

TYPES: Dict[str, Callable[[Any], bool]] = {
    'null': lambda value: value is None,
    'boolean': lambda value: type(value) is bool,
    'integer': lambda value: type(value) is int,
    'string': lambda value: type(value) is str,
    'array': lambda value: type(value) is list,
    'object': lambda value: type(value) is dict,
}
NOTES = ('$schema', '$defs', 'title', 'description')     # keywords that refuse nothing


def same(value: Any, other: Any) -> bool:
    """Returns whether two values of JSON are equal; true is not 1."""
    return type(value) is type(other) and value == other


def properties_fit(schemas: Dict[str, Schema], value: Any, schema: Schema, top: Schema) -> bool:
    return type(value) is not dict or all(fits(value[key], schemas[key], top) for key in schemas if key in value)


def no_other_properties(allowed: bool, value: Any, schema: Schema, top: Schema) -> bool:
    return allowed or type(value) is not dict or set(value) <= set(schema.get('properties', {}))


def referred(name: str, top: Schema) -> Schema:
    """Returns the schema that a reference of the form `#/$defs/NAME` names."""
    return top['$defs'][name.removeprefix('#/$defs/')]


KEYWORDS: Dict[str, Check] = {
    'type': lambda name, value, schema, top: TYPES[name](value),
    'const': lambda const, value, schema, top: same(value, const),
    'enum': lambda values, value, schema, top: any(same(value, other) for other in values),
    'minimum': lambda least, value, schema, top: type(value) is not int or value >= least,
    'maximum': lambda most, value, schema, top: type(value) is not int or value <= most,
    'pattern': lambda form, value, schema, top: type(value) is not str or re.search(form, value) is not None,
    'maxItems': lambda most, value, schema, top: type(value) is not list or len(value) <= most,
    'items': lambda each, value, schema, top: type(value) is not list or all(fits(item, each, top) for item in value),
    'properties': properties_fit,
    'required': lambda keys, value, schema, top: type(value) is not dict or set(keys) <= set(value),
    'additionalProperties': no_other_properties,
    '$ref': lambda name, value, schema, top: fits(value, referred(name, top), top),
    'anyOf': lambda schemas, value, schema, top: any(fits(value, one, top) for one in schemas),
}


def fits(value: Any, schema: Schema, top: Schema) -> bool:
    """Returns whether a value of JSON fits a part of the schema `top`. Raises KeyError for a keyword that is not known."""
    return all(KEYWORDS[key](schema[key], value, schema, top) for key in schema if key not in NOTES)


def is_valid(value: Any, schema: Schema) -> bool:
    """Returns whether a value of JSON fits a whole schema."""
    return fits(value, schema, schema)
