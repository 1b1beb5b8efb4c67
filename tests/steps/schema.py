"""A validator for the part of JSON Schema that docs/steps.schema.json uses."""
import re

TYPES = {"array": list, "object": dict, "string": str, "integer": int, "boolean": bool}
KNOWN = {
    "$ref", "$schema", "$defs", "title", "description", "type", "items", "prefixItems", "minItems", "maxItems", "minimum",
    "maximum", "pattern", "enum", "properties", "additionalProperties", "required",
}


class Schema:
    def __init__(self, whole):
        self.whole = whole

    def faults(self, value, rule=None, place="$"):
        """What of a value isn't as a rule says, each with its place."""
        rule = self.whole if rule is None else rule
        if isinstance(rule, bool):
            if not rule:
                yield f"{place}: nothing may stand here"
            return
        if unknown := rule.keys() - KNOWN:
            raise ValueError(f"the validator doesn't know {sorted(unknown)}")
        if "$ref" in rule:
            yield from self.faults(value, self.referred(rule["$ref"]), place)
        if "type" in rule and not is_of_type(value, rule["type"]):
            yield f"{place}: not of type {rule['type']}"
            return
        if "enum" in rule and value not in rule["enum"]:
            yield f"{place}: {value!r} is none of the values"
        if isinstance(value, list):
            yield from self.faults_of_list(value, rule, place)
        elif isinstance(value, dict):
            yield from self.faults_of_object(value, rule, place)
        elif isinstance(value, str) and not re.search(rule.get("pattern", ""), value):
            yield f"{place}: {value!r} doesn't fit the pattern"
        elif isinstance(value, int) and not rule.get("minimum", value) <= value <= rule.get("maximum", value):
            yield f"{place}: {value} is out of range"

    def referred(self, name):
        rule = self.whole
        for part in name.removeprefix("#/").split("/"):
            rule = rule[part]
        return rule

    def faults_of_list(self, value, rule, place):
        if not rule.get("minItems", 0) <= len(value) <= rule.get("maxItems", len(value)):
            yield f"{place}: {len(value)} items"
        first = rule.get("prefixItems", [])
        for number, item in enumerate(value):
            below = first[number] if number < len(first) else rule.get("items", True)
            yield from self.faults(item, below, f"{place}[{number}]")

    def faults_of_object(self, value, rule, place):
        for name in rule.get("required", []):
            if name not in value:
                yield f"{place}: {name} is missing"
        known = rule.get("properties", {})
        for name, member in value.items():
            yield from self.faults(member, known.get(name, rule.get("additionalProperties", True)), f"{place}.{name}")


def is_of_type(value, name):
    return isinstance(value, TYPES[name]) and (name == "boolean" or not isinstance(value, bool))
