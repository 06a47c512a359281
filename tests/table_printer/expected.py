# Prints the table for p points from the rules of the coefficients: python3 expected.py P
from fractions import Fraction as F
import sys
D, p = 159667200, int(sys.argv[1])
c = [F(1)]
while len(c) < 11:
    c.append(-sum(c[len(c) - j] / (j + 1) for j in range(1, len(c) + 1)))
g = [sum(c[:i + 1]) for i in range(11)]
l = [sum(c[k] * c[i - k] for k in range(i + 1)) for i in range(11)]
s = [sum(l[:i + 1]) for i in range(11)]
binomial = lambda n, k: 1 if k in (0, n) else binomial(n - 1, k - 1) + binomial(n - 1, k)
print(f"points {p} over {D}")
for name, rule, first in ("pp", s, 2), ("pc", l, 2), ("vp", g, 1), ("vc", c, 1):
    # the weight of the k-th newest sample: each difference of order i at least k has it (-1)^k times i over k
    weights = [D * sum(rule[first + i] * (-1) ** k * binomial(i, k) for i in range(k, p)) for k in range(p)]
    assert all(w.denominator == 1 for w in weights)
    print(name, *weights)
