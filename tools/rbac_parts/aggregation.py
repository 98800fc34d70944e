"""ClusterRoles that have the rules of others, which they choose by labels."""
from rbac_parts.parts import Fault, checked, field, fields

# Whether a label fits, from its value, None where there is no such label, and the values named.
OPERATORS = {
    "In": lambda value, values: value in values,
    "NotIn": lambda value, values: value not in values,
    "Exists": lambda value, _: value is not None,
    "DoesNotExist": lambda value, _: value is None,
}
WITH_VALUES = ("In", "NotIn")


def labels_of(part, name):
    """Labels with their values, either of which may be as short as the empty text."""
    labels = field(part, name, dict, {})
    return {key: checked(value, f"{name}.{key}", str) for key, value in labels.items()}


def selectors_of(item):
    """The selectors of an item, each as the tests of it: a label, an operator, and values."""
    rule = field(item, "aggregationRule", dict, {})
    return [tests_of(selector) for selector in fields(rule, "clusterRoleSelectors", dict, [])]


def tests_of(selector):
    """What a selector asks of labels. One that asks nothing chooses all."""
    tests = [(key, "In", {value}) for key, value in labels_of(selector, "matchLabels").items()]
    for asked in fields(selector, "matchExpressions", dict, []):
        key, operator = field(asked, "key", str), field(asked, "operator", str)
        values = {checked(value, "values", str) for value in field(asked, "values", list, [])}
        if operator not in OPERATORS:
            raise Fault(f"operator {operator!a} is none of {', '.join(OPERATORS)}")
        if bool(values) != (operator in WITH_VALUES):
            raise Fault(f"operator {operator} has {'' if values else 'no '}values")
        tests.append((key, operator, values))
    return tests


def chooses(tests, labels):
    """Whether a selector chooses what has these labels."""
    return all(OPERATORS[operator](labels.get(key), values) for key, operator, values in tests)


def aggregated(rules, labels, selectors):
    """The rules of each role with those of all that it chooses, and that these choose, and so on.

    All three are by role: its own rules, its labels, and its selectors.
    """
    chosen = {
        role: [other for other in labels if any(chooses(tests, labels[other]) for tests in asked)]
        for role, asked in selectors.items() if asked}
    return {role: list(dict.fromkeys(rule for other in met_from(role, chosen)
                                     for rule in rules[other])) for role in rules}


def met_from(role, chosen):
    """A role, all that it chooses, all that these choose, and so on, each once."""
    met = {role: True}
    todo = [role]
    while todo:
        new = [other for other in chosen.get(todo.pop(), ()) if other not in met]
        met.update(dict.fromkeys(new, True))
        todo += new
    return list(met)
