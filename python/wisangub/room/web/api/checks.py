"""Values of JSON against the schemas of the OpenAPI document, as far as those go that requests are checked by: no $ref,
no choice between schemas. What is wrong is told by a JSON pointer (RFC 6901) and in words."""

from typing import Any, Iterator

_TYPES: dict[str, tuple[type, ...]] = {
    "object": (dict,),
    "array": (list,),
    "string": (str,),
    "integer": (int,),
    "boolean": (bool,),
}
Fault = tuple[str, str]  # where, and why


def faults(schema: dict[str, Any], value: Any, at: str = "") -> Iterator[Fault]:
    """What is wrong with a value."""
    kind = schema["type"]
    if not isinstance(value, _TYPES[kind]) or isinstance(value, bool) and kind != "boolean":
        yield at, f"this is no {kind}"
        return
    if "enum" in schema and value not in schema["enum"]:
        yield at, f"this is none of {', '.join(map(str, schema['enum']))}"
    if kind == "integer":
        yield from _bounds(schema, value, at, "minimum", "maximum", "")
    elif kind == "string":
        yield from _bounds(schema, len(value), at, "minLength", "maxLength", " characters")
    elif kind == "array":
        yield from _array_faults(schema, value, at)
    elif kind == "object":
        yield from _object_faults(schema, value, at)


def _bounds(schema: dict[str, Any], found: int, at: str, least: str, most: str, unit: str) -> Iterator[Fault]:
    if found < schema.get(least, found):
        yield at, f"this is less than {schema[least]}{unit}"
    if found > schema.get(most, found):
        yield at, f"this is more than {schema[most]}{unit}"


def _array_faults(schema: dict[str, Any], value: list[Any], at: str) -> Iterator[Fault]:
    yield from _bounds(schema, len(value), at, "minItems", "maxItems", " items")
    if schema.get("uniqueItems") and len({repr(one) for one in value}) < len(value):
        yield at, "one item stands twice"
    for number, one in enumerate(value):
        yield from faults(schema["items"], one, f"{at}/{number}")


def _object_faults(schema: dict[str, Any], value: dict[str, Any], at: str) -> Iterator[Fault]:
    known = schema["properties"]
    for key in schema.get("required", ()):
        if key not in value:
            yield f"{at}/{key}", "this is missing"
    for key, one in value.items():
        if key in known:
            yield from faults(known[key], one, f"{at}/{key}")
        else:
            yield f"{at}/{key.replace('~', '~0').replace('/', '~1')}", "there is no such property"
