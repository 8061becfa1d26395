"""Keys of STUDY.toml: the fault that names one, and the checks that several tables share."""

from library.expressions import Formula, FormulaFault


class StudyFault(Exception):
    """A key of STUDY.toml and what is wrong with it."""

    def __init__(self, key, fault):
        super().__init__(f"{key}: {fault}")


def need(holds, key, fault):
    if not holds:
        raise StudyFault(key, fault)


def known(table, names, key):
    """Refuses a table that has another key than those."""
    need(isinstance(table, dict), key, "must be a table")
    for it in table:
        need(it in names, f"{key}.{it}" if key else it, "unknown key")


def text(table, name, key, default=None):
    value = table.get(name, default)
    need(isinstance(value, str), key, "must be a text")
    return value


def formula(value, key, names=None):
    """A formula over the names, where they are known by now."""
    need(isinstance(value, str), key, "must be a formula in quotes")
    try:
        found = Formula(value)
    except FormulaFault as fault:
        raise StudyFault(key, str(fault)) from None
    for it in sorted(found.names):
        need(names is None or it in names, key, f"there is no column {it}")
    return found


def values(value, key):
    need(isinstance(value, list) and value, key, "must be a list with a value")
    need(all(type(it) in (int, float, str) for it in value), key, "must be a list of numbers or texts")
    need(len(set(value)) == len(value), key, "has a value twice")
    return value
