#!/usr/bin/env python3
"""The class of each problem on paths (active and passive nodes of degree 2), by the strong components of an automaton.

    examples/catalogue/paths.py LIST

LIST is what problems.py prints for degrees 2 and 2. It prints for each its number and its class: `constant`, `order log* N`, `order N` or
`unsolvable`. A state is an active configuration in one of its orders, as (x, y); from (x, y) a step leads to (u, v) where y u is a passive
configuration. So the solutions on a path are the walks. Where some state and its mirror image (y, x) lie in one strong component whose closed
walks have greatest common divisor 1, parts that are solved in any direction can be joined wherever they meet far enough from one another:
order log* N, and constant where such a state has a step to itself. Else a closed walk gives solutions that run through the whole path,
order N; and without one there are none. This knows no certificate and no step of round elimination. The idea is that of Chang, Studený and
Suomela (Distributed graph problems through an automata-theoretic lens, SIROCCO 2021).
"""
import math
import sys


def reachable(states, steps, start):
    seen, todo = set(), [start]
    while todo:
        for other in steps[todo.pop()]:
            if other not in seen:
                seen.add(other)
                todo.append(other)
    return seen


def period(component, steps, start):
    """The greatest common divisor of the closed walks of a strong component; 0 where there are none."""
    depth, todo, found = {start: 0}, [start], 0
    while todo:
        state = todo.pop()
        for other in steps[state]:
            if other not in component:
                continue
            if other not in depth:
                depth[other] = depth[state] + 1
                todo.append(other)
            found = math.gcd(found, depth[state] + 1 - depth[other])
    return found


def class_of(problem):
    active, passive = (side.split() for side in problem.split(" / "))
    states = {order for config in active for order in (config, config[::-1])}
    joined = {order for config in passive for order in (config, config[::-1])}
    steps = {state: [other for other in states if state[1] + other[0] in joined] for state in states}
    reach = {state: reachable(states, steps, state) for state in states}
    found = "unsolvable"
    for state in states:
        if state not in reach[state]:
            continue
        component = {other for other in reach[state] if state in reach[other]}
        if state[::-1] in component and period(component, steps, state) == 1:
            if state in steps[state]:
                return "constant"
            found = "order log* N"
        elif found == "unsolvable":
            found = "order N"
    return found


def main(words):
    if len(words) != 1 or words[0].startswith("-"):
        sys.exit(__doc__)
    with open(words[0]) as lines:
        for line in lines:
            number, problem = line.rstrip("\n").split("\t")[:2]
            print(f"{number}\t{class_of(problem)}")


if __name__ == "__main__":
    main(sys.argv[1:])
