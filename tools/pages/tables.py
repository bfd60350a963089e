"""The tables of docs/FORMATS.md: roles, states and attributes, each with the version of scripts in which it came.

Names stand in the order of the tables. A test compares them with the page.
"""

ROLES_1 = """generic root_web_area heading paragraph static_text link button checkbox text_field image list list_item
table row cell iframe dialog alert menu menu_item tab tab_list main navigation form slider status article""".split()
ROLES_2 = "banner complementary search region tree tree_item switch progress_bar".split()

STATES_1 = "focusable expanded collapsed editable invisible required visited ignored".split()
STATES_2 = "multiselectable protected offscreen pressed".split()

ATTRIBUTES_1 = {
    "name": "Text", "description": "Text", "value": "Text", "placeholder": "Text", "language": "Text",
    "child_tree": "Tree", "live": "Text", "level": "Int", "pos_in_set": "Int", "set_size": "Int",
    "checked": "Text", "active_descendant": "Node", "controls": "Node", "clips": "Flag", "busy": "Flag",
    "modal": "Flag", "selected": "Flag", "value_now": "Int", "value_min": "Int", "value_max": "Int",
    "url": "Text", "access_key": "Text", "class_name": "Text", "atomic": "Flag",
}
ATTRIBUTES_2 = {
    "role_description": "Text", "key_shortcuts": "Text", "tooltip": "Text", "invalid": "Text",
    "error_message": "Node", "details": "Node", "flow_to": "Node", "labelled_by": "Node",
    "row_count": "Int", "column_count": "Int", "auto_complete": "Text", "container": "Node",
    "scroll_x": "Int", "scroll_y": "Int",
}
KINDS = {**ATTRIBUTES_1, **ATTRIBUTES_2}

LEAST_INT, GREATEST_INT = -2_147_483_648, 2_147_483_647
GREATEST_TREE = 1000
GREATEST_DEPTH = 256
GREATEST_READERS = 16


def roles(version):
    """The names of roles that a script of this version may use."""
    return ROLES_1 if version == 1 else ROLES_1 + ROLES_2


def states(version):
    """The names of states that a script of this version may use."""
    return STATES_1 if version == 1 else STATES_1 + STATES_2


def attributes(version):
    """The names of attributes that a script of this version may use, each with its kind."""
    return ATTRIBUTES_1 if version == 1 else KINDS
