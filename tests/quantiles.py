"""The rows of document 01, "The campaign", for the tests' own reckoning: by the exponential function itself in 80
digits, not by partial sums of its series. upper[n] and lower[n] for n from 1 to 64, and lower[0] = 0."""
from decimal import Decimal, getcontext

getcontext().prec = 80


def partial(n, x):
    term, total = Decimal(1), Decimal(0)
    for k in range(n):
        total += term
        term = term * x / (k + 1)
    return total


def least(holds):
    low, high = 0, 200_000_000
    while low < high:
        mid = (low + high) // 2
        low, high = (low, mid) if holds(mid) else (mid + 1, high)
    return low


def at(m):
    return Decimal(m) / 1_000_000


upper = {n: least(lambda m: 40 * partial(n, at(m)) < at(m).exp()) for n in range(1, 65)}
lower = {n: least(lambda m: 39 * at(m).exp() > 40 * partial(n, at(m))) - 1 for n in range(1, 65)}
lower[0] = 0
