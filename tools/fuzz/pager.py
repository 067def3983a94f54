"""Item sets that are merged where their kernels are weakly compatible, by the definition: D. Pager, 'A practical general method for
constructing LR(k) parsers', Acta Informatica 7, 1977. Nothing here is taken from the library."""
from canonical import END, Canonical


class Merged(Canonical):
    """The merged item sets of a grammar. In each state gotos come first, by the number of their rule, and then shifts, by that of their
    token: `symbols` has all symbols in this order."""

    def __init__(self, prods, start, most, symbols):
        self.order = {symbol: number for number, symbol in enumerate(symbols)}
        super().__init__(prods, start, most)

    def collect(self, most):
        self.kernels, self.waits, self.nexts = [], [], []
        self.place({(len(self.prods) - 1, 0, END)})
        while any(self.waits):
            # A state that comes anew is worked on in the same round.
            number = 0
            while number < len(self.kernels):
                if self.waits[number]:
                    self.waits[number] = False
                    self.nexts[number] = {symbol: self.place(kernel) for symbol, kernel in self.moves(self.kernels[number])}
                number += 1
            if len(self.kernels) > most:
                return False
        self.finish()
        return True

    def moves(self, kernel):
        """the symbols that may come next, each with the kernel after it"""
        found = {}
        for prod, dot, ahead in self.closure(kernel):
            symbols = self.prods[prod][1]
            if dot < len(symbols):
                found.setdefault(symbols[dot], set()).add((prod, dot + 1, ahead))
        return sorted(found.items(), key=lambda move: self.order[move[0]])

    def place(self, kernel):
        """the first state that is weakly compatible with the kernel, to which it is added, or a new one"""
        for number, other in enumerate(self.kernels):
            if are_weakly_compatible(other, kernel):
                self.waits[number] |= not kernel <= other
                other |= kernel
                return number
        self.kernels.append(set(kernel))
        self.waits.append(True)
        self.nexts.append({})
        return len(self.kernels) - 1

    def finish(self):
        """keeps the states that are reached from the first, with the items that come from there"""
        kernels, todo = {0: self.kernels[0]}, [0]
        while todo:
            here = todo.pop()
            for symbol, kernel in self.moves(kernels[here]):
                to = self.nexts[here][symbol]
                if to not in kernels or not kernel <= kernels[to]:
                    kernels[to] = kernels.get(to, set()) | kernel
                    todo.append(to)
        numbers = {state: number for number, state in enumerate(sorted(kernels))}
        self.sets = [self.closure(kernels[state]) for state in numbers]
        self.gotos = [{symbol: numbers[to] for symbol, to in self.nexts[state].items()} for state in numbers]


def by_core(kernel):
    found = {}
    for prod, dot, ahead in kernel:
        found.setdefault((prod, dot), set()).add(ahead)
    return found


def are_weakly_compatible(one, other):
    """whether both have the same cores, and no two cores share a lookahead only because both are merged"""
    one, other = by_core(one), by_core(other)
    if one.keys() != other.keys():
        return False
    pairs = ((a, b) for a in one for b in one if a < b)
    return all((one[a].isdisjoint(other[b]) and one[b].isdisjoint(other[a])) or one[a] & one[b] or other[a] & other[b] for a, b in pairs)
