"""Writes the formulas of bench/decide.sh, in DIMACS, into the folder that is given."""

import random
import sys


def random_three(variables, ratio, seed):
    """Clauses of three literals each, drawn at random."""
    draw = random.Random(seed)
    clauses = []
    for _ in range(int(variables * ratio)):
        chosen = sorted(draw.sample(range(1, variables + 1), 3))
        clauses.append([v if draw.random() < 0.5 else -v for v in chosen])
    return variables, clauses


def pigeons(holes):
    """One pigeon more than there are holes."""
    sits = lambda pigeon, hole: pigeon * holes + hole + 1
    clauses = [[sits(p, h) for h in range(holes)] for p in range(holes + 1)]
    for hole in range(holes):
        for one in range(holes + 1):
            clauses += [[-sits(one, hole), -sits(other, hole)] for other in range(one)]
    return holes * (holes + 1), clauses


class Circuit:
    """Gates as clauses, shared and simplified; literal 1 is true."""

    def __init__(self):
        self.last, self.clauses, self.known = 1, [[1]], {}

    def free(self):
        self.last += 1
        return self.last

    def gate(self, key, clauses_of):
        if key not in self.known:
            self.known[key] = self.free()
            self.clauses += clauses_of(self.known[key])
        return self.known[key]

    def both(self, a, b):
        if -1 in (a, b) or a == -b:
            return -1
        if a == 1 or a == b:
            return b
        if b == 1:
            return a
        a, b = sorted((a, b), key=abs)
        return self.gate(("and", a, b), lambda g: [[-g, a], [-g, b], [g, -a, -b]])

    def differ(self, a, b):
        negative = (a < 0) != (b < 0)
        a, b = sorted((abs(a), abs(b)))
        if a == b:
            out = -1
        elif a == 1:
            out = -b
        else:
            out = self.gate(("xor", a, b), lambda g: [[-g, a, b], [-g, -a, -b], [g, -a, b], [g, a, -b]])
        return -out if negative else out

    def either(self, a, b):
        return -self.both(-a, -b)

    def add(self, a, b):
        carry, out = -1, []
        for x, y in zip(a, b):
            half = self.differ(x, y)
            out.append(self.differ(half, carry))
            carry = self.either(self.both(x, y), self.both(half, carry))
        return out

    def ripple(self, a, b):
        """The sum with the carry as the majority of three."""
        carry, out = -1, []
        for x, y in zip(a, b):
            out.append(self.differ(x, self.differ(y, carry)))
            carry = self.either(self.both(x, y), self.both(carry, self.either(x, y)))
        return out

    def multiply(self, a, b):
        total = [-1] * len(a)
        for place, bit in enumerate(b):
            row = [-1] * place + [self.both(a[at - place], bit) for at in range(place, len(a))]
            total = self.add(total, row)
        return total


def miter(width, kind):
    """Two circuits of one function, asked to differ."""
    circuit = Circuit()
    a = [circuit.free() for _ in range(width)]
    b = [circuit.free() for _ in range(width)]
    if kind == "multiply":
        one, other = circuit.multiply(a, b), circuit.multiply(b, a)
    else:
        c = [circuit.free() for _ in range(width)]
        one = circuit.add(circuit.add(a, b), c)
        other = circuit.ripple(circuit.ripple(c, a), b)
    different = [circuit.differ(x, y) for x, y in zip(one, other)]
    circuit.clauses.append([x for x in different if x != -1])
    return circuit.last, circuit.clauses


def write(folder, name, formula):
    variables, clauses = formula
    with open(f"{folder}/{name}.cnf", "w") as file:
        file.write(f"p cnf {variables} {len(clauses)}\n")
        for clause in clauses:
            file.write(" ".join(map(str, sorted(clause, key=abs))) + " 0\n")


def main():
    folder = sys.argv[1]
    for variables in (150, 200):
        for seed in (1, 2):
            write(folder, f"random_{variables}_{seed}", random_three(variables, 4.26, seed))
    write(folder, "pigeons_7", pigeons(7))
    for width in (5, 6, 7, 8):
        write(folder, f"multiply_{width}", miter(width, "multiply"))
        write(folder, f"add_{width}", miter(width, "add"))


main()
