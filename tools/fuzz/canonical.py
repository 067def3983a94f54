"""Canonical LR(1) item sets and yacc's rule, by their definitions, and a parse by what comes of both. Nothing here is taken from the
library. Symbols are those of `grammars`; the end token is `END`."""
from collections import Counter

from grammars import rule, token

END = token("")


class Canonical:
    """The item sets of a grammar. An item is a production, a dot and a lookahead."""

    def __init__(self, prods, start, most):
        """productions are pairs of a rule's name and a list of symbols; no more than this number of sets are made"""
        self.prods = prods + [("", [rule(start)])]
        self.by_rule = {}
        for number, (name, _) in enumerate(self.prods):
            self.by_rule.setdefault(name, []).append(number)
        self.first = self.first_sets()
        self.sets, self.gotos = [], []
        self.is_whole = self.collect(most)

    def first_sets(self):
        """by rule the tokens that begin it, and None if it derives the empty text"""
        first = {name: set() for name in self.by_rule}
        size = -1
        while size != sum(map(len, first.values())):
            size = sum(map(len, first.values()))
            for name, symbols in self.prods:
                first[name] |= self.begins(symbols, first)
        return first

    def begins(self, symbols, first):
        found = set()
        for symbol in symbols:
            if symbol.is_token:
                return found | {symbol}
            found |= first.get(symbol.name, set()) - {None}
            if None not in first.get(symbol.name, set()):
                return found
        return found | {None}

    def closure(self, kernel):
        items, todo = set(kernel), list(kernel)
        while todo:
            prod, dot, ahead = todo.pop()
            symbols = self.prods[prod][1]
            if dot < len(symbols) and not symbols[dot].is_token:
                begins = self.begins(symbols[dot + 1 :], self.first)
                aheads = begins - {None} | ({ahead} if None in begins else set())
                new = {(other, 0, next) for other in self.by_rule.get(symbols[dot].name, ()) for next in aheads} - items
                items |= new
                todo += new
        return items

    def collect(self, most):
        kernels = {frozenset({(len(self.prods) - 1, 0, END)}): 0}
        todo = list(kernels)
        for kernel in todo:
            items = self.closure(kernel)
            moved = {}
            for prod, dot, ahead in items:
                symbols = self.prods[prod][1]
                if dot < len(symbols):
                    moved.setdefault(symbols[dot], set()).add((prod, dot + 1, ahead))
            gotos = {}
            for symbol, after in moved.items():
                after = frozenset(after)
                if after not in kernels:
                    kernels[after] = len(todo)
                    todo.append(after)
                gotos[symbol] = kernels[after]
            self.sets.append(items)
            self.gotos.append(gotos)
            if len(todo) > most:
                return False
        return True

    def reductions(self, state):
        """by token the productions that are complete before it, in order"""
        found = {}
        for prod, dot, ahead in self.sets[state]:
            if dot == len(self.prods[prod][1]):
                found.setdefault(ahead, []).append(prod)
        return {ahead: sorted(prods) for ahead, prods in found.items()}


class Table:
    """The table of these sets by precedences: `of_token` and `of_prod` have a level and an association, or None."""

    def __init__(self, canonical, of_token, of_prod):
        self.canonical = canonical
        self.accept = len(canonical.prods) - 1
        self.actions, self.resolved, self.listed, self.reduce_reduce, self.is_accept_alone = [], Counter(), Counter(), 0, True
        for state in range(len(canonical.sets)):
            self.actions.append(self.row(state, of_token, of_prod))

    def row(self, state, of_token, of_prod):
        shifts = {symbol: ("shift", to) for symbol, to in self.canonical.gotos[state].items() if symbol.is_token}
        row = dict(shifts)
        for ahead, prods in self.canonical.reductions(state).items():
            self.is_accept_alone &= self.accept not in prods or prods == [self.accept]
            self.reduce_reduce += len(prods) - 1
            first = prods[0]
            row[ahead] = ("accept",) if first == self.accept else ("reduce", first)
            if ahead in shifts:
                how = decided(of_prod(first), of_token(ahead))
                self.count(ahead, first, how)
                row[ahead] = {"reduces": row[ahead], "fails": None}.get(how, shifts[ahead])
        return row

    def count(self, ahead, prod, how):
        if how is None:
            self.listed[ahead, prod] += 1
        else:
            self.resolved[ahead, prod, how] += 1

    def parse(self, tokens, most=10_000):
        """the tree of these tokens; or the number of the one at which there is an error, or None if it would take too long"""
        states, trees, at = [0], [], 0
        for _ in range(most):
            action = self.actions[states[-1]].get(tokens[at] if at < len(tokens) else END)
            if action is None:
                return at
            if action[0] == "accept":
                return trees[0]
            if action[0] == "shift":
                states.append(action[1])
                trees.append((tokens[at], at))
                at += 1
            else:
                name, symbols = self.canonical.prods[action[1]]
                children = trees[len(trees) - len(symbols) :]
                del trees[len(trees) - len(symbols) :], states[len(states) - len(symbols) :]
                trees.append((name, children))
                states.append(self.canonical.gotos[states[-1]][rule(name)])
        return None


def decided(prod, ahead):
    """yacc's rule: the higher level wins, and at one level its association decides; nothing, if one of them has no level"""
    if prod is None or ahead is None:
        return None
    if prod[0] != ahead[0]:
        return "reduces" if prod[0] > ahead[0] else "shifts"
    return {"left": "reduces", "right": "shifts", "nonassoc": "fails"}[ahead[1]]
