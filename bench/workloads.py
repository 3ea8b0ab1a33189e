#!/usr/bin/env python3
"""Prints a script of some kind and size: workloads.py KIND SIZE. The same words always give the same script.

parse      SIZE long ads are advertised, and some are shown
query      SIZE machines, and queries that literal attributes decide nearly alone
scan       SIZE machines, and queries whose every pair has to be evaluated
eval       SIZE expressions beside one ad: chains of references, texts, lists, nested ads
negotiate  SIZE machines, half as many jobs of ten users with priorities; cycles and claims
gang       SIZE processors and licences; requests that want some of each
claims     SIZE machines that change hands: claims, preemption, releases, ads advertised anew
classes    SIZE jobs in 40 classes, each with a number of its own, over some machines
twins      as many jobs as machines, of ten kinds, each with a number and a time of its own; no test narrows; one cycle
batches    the same without numbers and times, so that the ads of a kind are equal
generate   the script that the program runs with the words `--generate SIZE`, for any size
"""
import random
import sys

ARCHES = ["INTEL", "ALPHA", "SPARC", "ARM"]
USERS = ["ann", "bob", "cleo", "dan", "eva", "fritz", "gina", "hugo", "iris", "jack"]


def with_block(line, ad):
    return f"{line}\n{ad}\n.\n"


def machine(dice, i):
    return (
        f'[ Type = "machine"; Number = {i}; Arch = "{dice.choice(ARCHES)}"; Memory = {64 << dice.randrange(8)}; '
        f"Disk = {dice.randrange(1000000)}; Speed = {dice.randrange(1000)}; Rack = {dice.randrange(100)}; "
        "Load = Speed % 10; Requirements = TARGET.Size <= Memory && TARGET.Owner != \"guest\"; Rank = TARGET.Worth ]"
    )


def job(dice, owner, condition, worth=1):
    return (
        f'[ Owner = "{owner}"; Size = {1 + dice.randrange(64)}; Worth = {worth}; '
        f"Requirements = {condition}; Rank = TARGET.Speed + TARGET.Memory / 64 ]"
    )


def machines(dice, size):
    for i in range(size):
        yield with_block(f"advertise m{i} 1000000", machine(dice, i))


def parse(dice, size):
    for i in range(size):
        definitions = [f"A{k} = (B{k} + {dice.randrange(1000)}) * C{k} - D[{k}]; B{k} = \"text number {k}\"" for k in range(12)]
        nested = "; ".join(f"N{k} = [ X = {k}; Y = {{ X, X + 1, \"y\" }} ]" for k in range(6))
        yield with_block(f"advertise a{i} 1000000", f"[ {'; '.join(definitions)}; {nested}; Requirements = A1 < A2 || isUndefined(A3) ]")
        if i % 50 == 0:
            yield f"show a{i}\n"


def query(dice, size):
    yield from machines(dice, size)
    for i in range(max(100, size // 4)):
        condition = f'TARGET.Rack == {dice.randrange(100)} && TARGET.Arch == "{dice.choice(ARCHES)}"'
        if i % 3 == 0:
            condition = f"TARGET.Disk >= {dice.randrange(980000, 1000000)}"
        yield with_block("query", job(dice, "ann", condition))


def scan(dice, size):
    yield from machines(dice, size)
    for _ in range(40):
        condition = f"TARGET.Memory + TARGET.Disk * 2 > {dice.randrange(2000000)} || TARGET.Load == {dice.randrange(10)}"
        yield with_block("query", job(dice, "bob", condition))


def evals(dice, size):
    chain = "; ".join(f"X{k} = X{k - 1} + X{max(0, k - 2)} % 7" for k in range(1, 20))
    texts = "; ".join(f'S{k} = strcat(S{k - 1}, ",", string(X{k}))' for k in range(1, 15))
    yield with_block("advertise a 1000000", f'[ X0 = 3; {chain}; S0 = "begin"; {texts}; L = {{ {", ".join(str(k * 37 % 101) for k in range(100))} }}; N = [ A = X5; B = [ C = A * X6 ] ] ]')
    shapes = [
        lambda k: f"X{k % 20} * {k} - X{(k + 3) % 20} % 5",
        lambda k: f'size(S{k % 15}) + stringListSize(S{k % 15}) > {k % 40} && member("x", {{ S1, S2 }})',
        lambda k: f"sum(L) + max(L) * {k} - L[{k % 100}]",
        lambda k: f"N.B.C + {k} > 0 ? N.A : error",
        lambda k: " || ".join(f"X{(k + i) % 20} == {i}" for i in range(12)),
    ]
    for k in range(size):
        yield f"evalin a {shapes[k % len(shapes)](k)}\n"


def submitted(dice, count):
    for j in range(count):
        owner = dice.choice(USERS)
        condition = f'TARGET.Arch == "{dice.choice(ARCHES)}" && TARGET.Memory >= {64 << dice.randrange(6)}'
        if j % 8 == 0:
            condition = f"TARGET.Memory * TARGET.Speed > {dice.randrange(100000)}"
        yield with_block(f"submit j{j} {owner}", job(dice, owner, condition, dice.randrange(3)))


def negotiate(dice, size):
    yield from machines(dice, size)
    for place, user in enumerate(USERS):
        yield f"priority {user} {place * place + 1}\n"
    yield from submitted(dice, size // 2)
    for _ in range(3):
        yield "negotiate\n"
        for j in range(0, size // 2, 3):
            yield f"claim j{j}\n"


def gang(dice, size):
    for i in range(size):
        host = dice.randrange(max(1, size // 4))
        if i % 3:
            yield with_block(f"advertise c{i} 1000000", f'[ Type = "cpu"; Host = {host}; Speed = {dice.randrange(100)}; Requirements = true ]')
        else:
            yield with_block(f"advertise l{i} 1000000", f'[ Type = "license"; Host = {host}; App = {dice.randrange(5)}; Requirements = true ]')
    for i in range(max(50, size // 10)):
        ports = (
            '[ Label = "cpu"; Requirements = TARGET.Type == "cpu"; Rank = TARGET.Speed ], '
            f'[ Label = "key"; Requirements = TARGET.Type == "license" && TARGET.App == {dice.randrange(5)} && TARGET.Host == cpu.Host ]'
        )
        line = "gang" if i % 2 else f"submit g{i} {dice.choice(USERS)}"
        yield with_block(line, f"[ Ports = {{ {ports} }} ]")
    yield "negotiate\n"


def claims(dice, size):
    yield from machines(dice, size)
    yield from submitted(dice, size)
    for turn in range(5):
        yield "negotiate\n"
        for j in range(size):
            step = dice.randrange(4)
            if step < 2:
                yield f"claim j{j}\n"
            elif step == 2 and turn:
                yield f"release j{j}\n"
        for i in range(0, size, 5):
            yield with_block(f"advertise m{i} 1000000", machine(dice, i))
    yield "list\n"


def classes(dice, size):
    yield from machines(dice, size // 20 + 1)
    for j in range(size):
        kind = j % 40
        ad = f'[ Owner = "{USERS[kind % 10]}"; Size = {kind // 10}; Worth = {kind}; Number = {j}; Began = {dice.randrange(10**9)}; Requirements = TARGET.Memory >= Size * 64 ]'
        yield with_block(f"submit j{j} {USERS[kind % 10]}", ad)
    for _ in range(5):
        yield "classes\n"


def of_ten_kinds(dice, size, own):
    yield from machines(dice, size)
    for j in range(size):
        kind = dice.randrange(10)
        number = f"Number = {j}; Began = {1700000000 + 13 * j}; " if own else ""
        yield with_block(
            f"submit j{j} {USERS[kind]}",
            f'[ {number}Owner = "{USERS[kind]}"; Size = {1 + kind}; Worth = {kind % 3}; Requirements = TARGET.Speed * 10 >= {kind * 370}; Rank = TARGET.Speed + TARGET.Memory / 64 ]',
        )
    yield "negotiate\n"


def twins(dice, size):
    return of_ten_kinds(dice, size, True)


def batches(dice, size):
    return of_ten_kinds(dice, size, False)


def generate(dice, size):
    for i in range(size):
        yield with_block(
            f"advertise m{i} 600",
            f'[ Arch = "A{i % 4}"; Memory = {64 * (1 + i % 8)}; Load = Memory / 64; Requirements = TARGET.Owner != "guest" && Load < 9 ]',
        )
    yield "priority alice 1\npriority bob 3\n"
    for j in range(size // 2):
        owner = "bob" if j % 2 else "alice"
        yield with_block(
            f"submit j{j} {owner}",
            f'[ Owner = "{owner}"; Requirements = TARGET.Arch == "A{j % 4}" && TARGET.Memory >= 128; Rank = TARGET.Memory ]',
        )
    yield with_block("query", '[ Owner = "q"; Requirements = TARGET.Arch == "A1"; Rank = TARGET.Load ]')
    yield "negotiate\n"


KINDS = {
    "parse": parse,
    "query": query,
    "scan": scan,
    "eval": evals,
    "negotiate": negotiate,
    "gang": gang,
    "claims": claims,
    "classes": classes,
    "twins": twins,
    "batches": batches,
    "generate": generate,
}


def script(kind, size):
    return "".join(KINDS[kind](random.Random(size), size))


if __name__ == "__main__":
    sys.stdout.write(script(sys.argv[1], int(sys.argv[2])))
