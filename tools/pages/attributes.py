"""The attributes of a node, from what the browser tells of it and from its element's own attributes."""
from . import tables

TEXT_PROPERTIES = {"live": "live", "checked": "checked", "url": "url", "keyshortcuts": "key_shortcuts",
                   "roledescription": "role_description", "invalid": "invalid", "autocomplete": "auto_complete"}
FLAG_PROPERTIES = {"busy": "busy", "modal": "modal", "selected": "selected", "atomic": "atomic"}
INT_PROPERTIES = {"level": "level", "valuemin": "value_min", "valuemax": "value_max"}
NODE_PROPERTIES = {"activedescendant": "active_descendant", "controls": "controls", "errormessage": "error_message",
                   "details": "details", "flowto": "flow_to", "labelledby": "labelled_by"}
TEXT_MARKUP = {"placeholder": "placeholder", "lang": "language", "accesskey": "access_key", "class": "class_name", "title": "tooltip"}
INT_MARKUP = {"aria-posinset": "pos_in_set", "aria-setsize": "set_size", "aria-rowcount": "row_count", "aria-colcount": "column_count"}
TOLD_OTHERWISE = set("""focusable focused editable hidden hiddenRoot required expanded pressed multiselectable root settable""".split())


class Attributes:
    """The attributes of a node, while they are gathered."""

    def __init__(self, conversion, node):
        self.conversion, self.node = conversion, node
        self.allowed = tables.attributes(conversion.frame.version)
        self.given = {}

    def set(self, name, value):
        """Gives an attribute, where this version of scripts has it."""
        if name in self.allowed:
            self.given[name] = self.conversion.clean(value, self.node) if isinstance(value, str) else value
        else:
            self.conversion.note(f"attribute {name}, which came with version 2", self.node)

    def set_number(self, name, value):
        """Gives an attribute that is a whole number."""
        try:
            number = float(value)
        except (TypeError, ValueError):
            return
        if number.is_integer() and tables.LEAST_INT <= number <= tables.GREATEST_INT:
            self.set(name, int(number))
        else:
            self.conversion.note(f"{name} that is no whole number of 32 bits", self.node)

    def add_properties(self):
        """What the browser tells of an accessible node."""
        values = properties(self.node)
        for name in ("name", "description"):
            text = self.node.get(name, {}).get("value")
            if text:
                self.set(name, text)
        self.add_value(values)
        for name, value in values.items():
            self.add_property(name, value)

    def add_value(self, values):
        """The value: a number for what has a range, a text else."""
        value = self.node.get("value", {}).get("value")
        if value is None or value == "":
            return
        if "valuemin" in values or "valuemax" in values:
            self.set_number("value_now", value)
        else:
            self.set("value", value if isinstance(value, str) else str(value))

    def add_property(self, name, value):
        """One property, by its name."""
        if name in TEXT_PROPERTIES:
            if value not in ("", "false") or name == "checked":
                self.set(TEXT_PROPERTIES[name], str(value))
        elif name in FLAG_PROPERTIES:
            if value:
                self.set(FLAG_PROPERTIES[name], True)
        elif name in INT_PROPERTIES:
            self.set_number(INT_PROPERTIES[name], value)
        elif name in NODE_PROPERTIES:
            self.add_relation(name, value)
        elif name not in TOLD_OTHERWISE and value not in (False, "false", "", "none"):
            self.conversion.note(f"property {name}", self.node)

    def add_relation(self, name, related):
        """A relation to a node of the same tree; of several the first."""
        ids = [self.conversion.known_id(key) for key in related]
        if len(ids) > 1:
            self.conversion.note(f"{name} with more than one node", self.node)
        if ids and ids[0]:
            self.set(NODE_PROPERTIES[name], ids[0])
        elif ids:
            self.conversion.note(f"{name} with a node outside the tree", self.node)

    def add_markup(self, element):
        """What only the element's own attributes tell."""
        for source, names, give in ((TEXT_MARKUP, element, self.set), (INT_MARKUP, element, self.set_number)):
            for markup, name in source.items():
                value = names.attributes.get(markup, "") if names else ""
                if value:
                    give(name, value)


def role_of(node):
    """The browser's name of a node's role."""
    return node.get("role", {}).get("value", "none")


def properties(node):
    """The properties of a node: values by names; of a relation, the numbers of its nodes."""
    values = {}
    for row in node.get("properties", []):
        value = row["value"]
        related = [one["backendDOMNodeId"] for one in value.get("relatedNodes", []) if "backendDOMNodeId" in one]
        values[row["name"]] = related if row["name"] in NODE_PROPERTIES else value.get("value", related)
    return values
