"""Selections: predicates that are read word by word, and whether a content meets one.

A predicate is made of tests `COLUMN OP VALUE`, of `not`, `and`, `or` and parentheses; `and` binds closer than `or`.
Here it is a function from cells to a truth value."""
import operator

from .values import GONE, Refused, cell_columns, cell_kind
from .words import value_of

NESTED_MOST = 64
OPERATORS = {
    '=': operator.eq, '!=': operator.ne, '<': operator.lt, '<=': operator.le, '>': operator.gt, '>=': operator.ge,
}


def holds(predicate, content):
    """A deleted row meets no predicate, not even one that is turned round."""
    return content != GONE and predicate(content.cells)


def parsed(schema, words):
    """The predicate that words spell. It refuses the first word at which none goes on; where words are missing, their
    count."""
    if not cell_columns(schema):
        raise Refused(28, 0)
    return Parser(schema, words).whole()


def any_of(parts):
    return lambda cells: any(part(cells) for part in parts)


def all_of(parts):
    return lambda cells: all(part(cells) for part in parts)


class Parser:
    def __init__(self, schema, words):
        self.columns = cell_columns(schema)
        self.words = words
        self.at = 0

    def refuse(self):
        raise Refused(28, self.at)

    def next_is(self, *words):
        return self.at < len(self.words) and self.words[self.at] in words

    def take(self):
        """The next word."""
        if self.at == len(self.words):
            self.refuse()
        self.at += 1
        return self.words[self.at - 1]

    def take_if(self, word):
        is_next = self.next_is(word)
        self.at += is_next
        return is_next

    def whole(self):
        predicate = self.alternatives(NESTED_MOST)
        if self.at < len(self.words):
            self.refuse()
        return predicate

    def alternatives(self, room):
        return any_of(self.parted('or', lambda: all_of(self.parted('and', lambda: self.test(room)))))

    def parted(self, word, part):
        """One or more parts, with a word between each two."""
        parts = [part()]
        while self.take_if(word):
            parts.append(part())
        return parts

    def test(self, room):
        """A test in which `not` and parentheses may nest so deep."""
        if self.next_is('not') and not self.is_column_not(room):
            self.nest(room)
            turned = self.test(room - 1)
            return lambda cells: not turned(cells)
        if self.next_is('('):
            self.nest(room)
            inside = self.alternatives(room - 1)
            if not self.take_if(')'):
                self.refuse()
            return inside
        return self.comparison()

    def is_column_not(self, room):
        """Whether `not` is the column of that name: where an operator follows, and where tests nest no deeper."""
        has_column = any(column.name == 'not' for column in self.columns)
        behind = self.words[self.at + 1:self.at + 2]
        return has_column and (not room or bool(behind) and behind[0] in OPERATORS)

    def nest(self, room):
        if not room:
            self.refuse()
        self.at += 1

    def comparison(self):
        column = self.column()
        kind = self.columns[column].kind
        if not self.next_is(*OPERATORS):
            self.refuse()
        compare = OPERATORS[self.take()]
        value = self.value(kind)
        return lambda cells: compare(cells[column], value)

    def column(self):
        names = [column.name for column in self.columns]
        if not self.next_is(*names):
            self.refuse()
        return names.index(self.take())

    def value(self, kind):
        """A value of a column's kind."""
        value = value_of(self.words[self.at]) if self.at < len(self.words) else None
        if type(value) not in (int, bool, bytes) or cell_kind(value) != kind:
            self.refuse()
        self.at += 1
        return value
