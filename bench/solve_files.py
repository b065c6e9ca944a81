"""Writes the files for bench/solve.sh into a folder: clauses in DIMACS form, the same at each run."""
import random
import sys


def write(name, variables, clauses):
    with open(f"{sys.argv[1]}/{name}.cnf", "w") as file:
        file.write(f"p cnf {variables} {len(clauses)}\n")
        for clause in clauses:
            file.write(" ".join(map(str, clause)) + " 0\n")


def random_clauses(variables, seed):
    draw = random.Random(seed)
    names = range(1, variables + 1)
    count = round(4.26 * variables)
    return [[name if draw.random() < 0.5 else -name for name in draw.sample(names, 3)] for _ in range(count)]


def pigeons(holes):
    seat = lambda pigeon, hole: pigeon * holes + hole + 1
    clauses = [[seat(pigeon, hole) for hole in range(holes)] for pigeon in range(holes + 1)]
    for hole in range(holes):
        for pigeon in range(holes + 1):
            clauses += [[-seat(pigeon, hole), -seat(other, hole)] for other in range(pigeon)]
    return clauses


for variables in (150, 200):
    for seed in range(10):
        write(f"random_{variables}_{seed}", variables, random_clauses(variables, seed))
write("pigeons_8_in_7", 56, pigeons(7))
write("chain_100000", 100001, [[1]] + [[-name, name + 1] for name in range(1, 100001)])
write("follows_1000000", 1000000, [[1], [2]] + [[1 - name, -(name // 2), name] for name in range(3, 1000001)])
