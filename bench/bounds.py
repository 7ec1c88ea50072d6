"""How many chains there can be at each degree, and how many splits one search for them can make: `python3 bench/bounds.py`.

A search that counts makes these splits: f at each of its right degrees; where there is a pair, its right part at each of its own
right degrees until one splits; where none does, the same for the left part.

Which of these splits have a pair depends only on the set of right degrees at which f itself splits, since n has an inverse: with
f = g(h), h of degree a, the left part g splits at s exactly if f splits at a*s, and the right part h at u exactly if f does. So
all sets of right degrees are tried, also those that no f has.
"""

import functools
import itertools

MOST = 126  # the highest degree


def right_degrees(n):
    return [s for s in range(2, n // 2 + 1) if n % s == 0]


@functools.cache
def bound(n):
    """Splits of a search if every one of f has a pair and none of a right part."""
    return sum(1 + len(right_degrees(s)) + bound(n // s) for s in right_degrees(n))


@functools.cache
def factorisations(n):
    """Ordered factorisations of n: the degrees that a chain may have, complete or not."""
    return 1 + sum(factorisations(n // s) for s in right_degrees(n))


@functools.cache
def chains_of_power(n):
    """Complete chains of x^n: all orders of the prime factors of n."""
    primes = [p for p in [*right_degrees(n), n] if not right_degrees(p)]
    return 1 if n in primes else sum(chains_of_power(n // p) for p in primes)


def search(n, splits, a=1):
    """Chains counted and splits made, for an f that splits at these right degrees; a is the degree of what is split off."""
    chains = made = 0
    for s in right_degrees(n // a):
        made += 1
        if a * s in splits:
            tries = [a * u in splits for u in right_degrees(s)]
            made += tries.index(True) + 1 if True in tries else len(tries)
            if True not in tries:
                more = search(n, splits, a * s)
                chains, made = chains + more[0], made + more[1]
    return max(chains, 1), made


def most(n):
    """The most chains and the most splits that any f of degree n may have."""
    degrees = right_degrees(n)
    sets = itertools.chain.from_iterable(itertools.combinations(degrees, k) for k in range(len(degrees) + 1))
    found = [search(n, set(splits)) for splits in sets]
    return max(chains for chains, _ in found), max(made for _, made in found)


def main():
    degrees = range(2, MOST + 1)
    for name, of in ("bound on splits", bound), ("ordered factorisations", factorisations), ("chains of x^n", chains_of_power):
        for kind, these in ("any n", degrees), ("odd n", degrees[1::2]):
            top = max(map(of, these))
            print(f"{name}, {kind}: at most {top}, at n =", *(n for n in these if of(n) == top))
    for n in degrees:
        power = search(n, set(right_degrees(n)))
        assert power == most(n) and power[0] == chains_of_power(n), n
        if power[1] >= 50:
            print(f"x^{n}: {power[0]} chains, {power[1]} splits, and no f of this degree has more")


if __name__ == "__main__":
    main()
