#!/usr/bin/env python3
"""Writes crates/field_vectors/stdin: a line for each vector, made by Python's whole numbers modulo the prime.

A line is the field's number, a sign and three elements a, b, r of two coordinates each, 16 hexadecimal digits a coordinate:
  +, -, *   a and b give r, as elements c0 + c1 u with u^2 = 7, in field 2 with c1 = 0;   n   r is -a
  ^         the power b.c0 of a.c0 is r.c0;   g   entry a.c0 of the generators is r.c0
Run it at the repository's root: tools/field_vectors.py > crates/field_vectors/stdin
"""
import random
from dataclasses import dataclass

# How many random pairs each field has.
RANDOM = 20


@dataclass
class Field:
    number: int
    modulus: int
    bound: int  # what c1 is below
    edges: list
    generator: int  # of all elements c0 but zero
    two_adicity: int

    def element(self, c0, c1):
        return c0 % self.modulus, c1 % self.bound

    def line(self, sign, a, b, r):
        print(self.number, sign, *(f"{c:016x}" for c in a + b + self.element(*r)))

    def neg(self, a):
        self.line("n", a, (0, 0), (-a[0], -a[1]))

    def answers(self, a, b):
        self.line("+", a, b, (a[0] + b[0], a[1] + b[1]))
        self.line("-", a, b, (a[0] - b[0], a[1] - b[1]))
        self.line("*", a, b, (a[0] * b[0] + 7 * a[1] * b[1], a[0] * b[1] + a[1] * b[0]))

    def at_edges(self):
        for i, x in enumerate(self.edges):
            self.neg(self.element(x, self.edges[i - 1]))
            for j, y in enumerate(self.edges):
                self.answers(self.element(x, self.edges[j - 1]), self.element(y, self.edges[i - 2]))

    def at_random(self):
        for _ in range(RANDOM):
            a, b = [self.element(*(random.randrange(self.modulus) for _ in range(2))) for _ in range(2)]
            self.answers(a, b)
            self.neg(a)
            self.line("^", (a[0], 0), (b[0], 0), (pow(a[0], b[0], self.modulus), 0))

    def generators(self):
        for k in range(self.two_adicity + 1):
            self.line("g", (k, 0), (0, 0), (pow(self.generator, (self.modulus - 1) >> k, self.modulus), 0))


P = 2**64 - 2**32 + 1
Q = 2**31 - 2**27 + 1
EDGES_P = [0, 1, P - 1, 2**32 - 1, 2**32, 2**63, P - 2**32, (P + 1) // 2]
EDGES_Q = [0, 1, Q - 1, (Q + 1) // 2, 2**27, 2**30]

random.seed(64)
for field in Field(1, P, P, EDGES_P, 7, 32), Field(2, Q, 1, EDGES_Q, 31, 27):
    field.at_edges()
    field.at_random()
    field.generators()
