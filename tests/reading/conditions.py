"""The condition behind WHEN: an expression by itself, typed as a transition's condition is."""

import grammar
from lexer import Refused, tokens


class ConditionParser(grammar.Parser):
    """Reads one expression and nothing behind it."""

    def condition(self):
        """The tree of the whole text."""
        tree = self.expression()
        if self.peek().kind != "end":
            self.fail()
        return tree


def read_condition(text: str):
    """The tree of a text; raises ValueError where there is none, or where it is too deep."""
    try:
        return ConditionParser(tokens(text.encode("latin-1"))).condition()
    except Refused as refused:
        raise ValueError(str(refused)) from None


def typed_condition(tree, scope):
    """The expression as a BOOL where names are those of a scope; raises ValueError where it is none."""
    try:
        return scope.check(tree, "BOOL")
    except Refused as refused:
        raise ValueError(str(refused)) from None
