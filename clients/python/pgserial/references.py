"""Foreign keys that change rows by themselves, where the rows that they refer to are deleted or changed."""

from typing import Hashable, Iterable, List, Mapping, NamedTuple, Set

from .catalog import Cascade, Hazard, Table


class Reference(NamedTuple):
    """A foreign key: which table has it, which it refers to, and what it does."""

    child: Hashable
    parent: Hashable
    parent_name: str
    cascade: Cascade
    is_partial: bool = False  # whether it sets only some of its columns, or is disabled


def _reaching(references: Iterable[Reference], recorded: Iterable[Hashable]) -> Set[Hashable]:
    """The tables from which foreign keys change rows of recorded ones, perhaps by way of others."""
    reaching = set(recorded)
    while True:
        more = {each.parent for each in references if each.child in reaching} - reaching
        if not more:
            return reaching
        reaching |= more


def _hidden(reference: Reference, table: Table) -> Hazard:
    """What a foreign key changes that can't be said."""
    cascade = reference.cascade
    verbs = [verb for verb, does in (("delete", cascade.on_delete), ("update", cascade.on_update)) if does]
    return Hazard(frozenset(verbs), f"a foreign key of table {cascade.child} changes rows with those of table {table.real}")


def with_references(tables: Mapping[Hashable, Table], references: List[Reference]) -> List[Table]:
    """The recorded tables, with what foreign keys change of them and by them."""
    reaching = _reaching(references, tables)
    others = tuple(each.parent_name for each in references if each.child in reaching and each.parent not in tables)
    made = []
    for name, table in tables.items():
        own = [each for each in references if each.parent == name and each.child in reaching]
        said = [each for each in own if each.child in tables and not each.is_partial]
        hazards = tuple(_hidden(each, table) for each in own if each not in said)
        cascades = tuple(each.cascade for each in said)
        made.append(table._replace(cascades=cascades, hazards=table.hazards + hazards, reached=others))
    return made
