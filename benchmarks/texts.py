"""Writes the texts that docs/BENCHMARKS.md measures into the current folder."""

import random


def write(name, lines):
    with open(name, "w", encoding="ascii") as file:
        file.writelines(line + "\n" for line in lines)


def constants(count):
    return [f"const c{i}: idx;" for i in range(count)]


def wide(rng):
    """2,000 bounds of 18 digits between 4,000 constants."""
    bounds = []
    for _ in range(2000):
        a, b = rng.sample(range(4000), 2)
        bounds.append(f"query c{a} <= c{b} + {rng.randrange(10**17, 10**18)};")
    return constants(4000) + bounds


def chain(count):
    """One bound after the other, with a distance that grows."""
    return constants(count + 1) + [f"query c{i + 1} <= c{i} - {i + 1};" for i in range(count)]


def ring(count):
    """A negative cycle through all bounds."""
    return constants(count) + [f"query c{(i + 1) % count} <= c{i} - 1;" for i in range(count)]


def one_machine(rng, jobs, spare):
    """Jobs of which no two may overlap, to be done in the sum of their durations and the spare time."""
    times = [rng.randrange(2, 9) for _ in range(jobs)]
    lines = ["const start: idx;"] + [f"const s{i}: idx;" for i in range(jobs)] + ["query start = 0;"]
    for i in range(jobs):
        lines += [f"query start <= s{i};", f"query s{i} <= {sum(times) - times[i] + spare};"]
        lines += [f"query s{i} <= s{j} - {times[i]} | s{j} <= s{i} - {times[j]};" for j in range(i)]
    return lines


MEGABYTE = 1_048_576


def clauses():
    """A megabyte of clauses with functions, guard and head."""
    declarations = ["const c, d: num;", "fun f(num): num level 1;", "fun g(num): num level 1;"]
    clause = "clause [x:num, y:num] x <= y & g(x) < 3/4 -> f(x) <= f(y + 1);"
    room = MEGABYTE - sum(len(line) + 1 for line in declarations)
    return declarations + [clause] * (room // (len(clause) + 1))


def compared(rng, count, guards):
    """Clauses of all orders between 500 constants, some of them with a guard, which one assignment makes true."""
    values = [rng.randrange(10**9) for _ in range(500)]
    lines = ["const " + ", ".join(f"c{i}" for i in range(500)) + ": idx;"]
    for _ in range(count):
        a, b = rng.sample(range(500), 2)
        apart = values[b] - values[a]
        sign = "+" if apart >= 0 else "-"
        guard = rng.choice(["", "", f"c{a} != c{b} & c{b} > c{a} - {rng.randrange(10**10, 10**11)} -> "])
        relation = rng.choice(["<=", ">=", "="])
        lines.append(f"query {guard if guards else ''}c{b} {relation} c{a} {sign} {abs(apart)};")
    return lines


def num_constants(count):
    return ["const " + ", ".join(f"c{i}" for i in range(count)) + ": num;"]


def linear(rng, count, names, low, high):
    """Rows of two to four names with small coefficients."""
    lines = num_constants(names)
    for _ in range(count):
        chosen = sorted(rng.sample(range(names), rng.randrange(2, 5)))
        coefficients = [rng.choice([-3, -2, -1, 1, 2, 3]) for _ in chosen]
        left = " + ".join(f"{c} * c{i}" for c, i in zip(coefficients, chosen)).replace("+ -", "- ")
        lines.append(f"query {left} {rng.choice(['<=', '<', '<='])} {rng.randrange(low, high + 1)};")
    return lines


def large(rng, count, names, least):
    """Rows of three names with coefficients of up to four digits, whose bounds leave at least so much room at some values."""
    values = [rng.randrange(-50, 50) for _ in range(names)]
    lines = num_constants(names)
    for _ in range(count):
        chosen = sorted(rng.sample(range(names), 3))
        coefficients = [rng.randrange(1, 10_000) * rng.choice([-1, 1]) for _ in chosen]
        bound = sum(c * values[i] for c, i in zip(coefficients, chosen)) + rng.randrange(least, 10_000)
        left = " + ".join(f"{c} * c{i}" for c, i in zip(coefficients, chosen)).replace("+ -", "- ")
        lines.append(f"query {left} <= {bound};")
    return lines


def apart(count):
    """A bound on each of so many names."""
    return num_constants(count) + [f"query c{i} < 0;" for i in range(count)]


def strained(rng, count):
    """Rows over 10 fractions that can't all hold and need wide multipliers, behind a bound on each of so many other names."""
    component = large(rng, 60, 10, -10_000)
    others = ["const " + ", ".join(f"d{i}" for i in range(count)) + ": num;"]
    return component[:1] + others + [f"query d{i} < 0;" for i in range(count)] + component[1:]


def num_chain(count, closed):
    """One name below the next, and the last below the first where closed."""
    last = [f"query c{count} < c0;"] if closed else []
    return num_constants(count + 1) + [f"query c{i} < c{i + 1};" for i in range(count)] + last


def num_choices(rng, count):
    """Fractions that are to be apart from one another within an interval: a choice for each pair."""
    lines = num_constants(count)
    lines += [f"query 0 <= c{i};" for i in range(count)] + [f"query c{i} <= {count - 1};" for i in range(count)]
    lines += [f"query c{i} + 1 <= c{j} | c{j} + 1 <= c{i};" for i in range(count) for j in range(i)]
    return lines


def applications(count):
    """A function at so many constants, with different values."""
    names = ", ".join(f"c{at}" for at in range(count))
    values = [f"query f(c{at}) = {at};" for at in range(count)]
    return [f"const {names}: num;", "fun f(num): num level 1;"] + values


def rising(count, gap):
    """A rising function at constants in a row, with values that rise, or, where there is a gap, one that falls behind."""
    names = [f"c{n}" for n in range(count)]
    lines = [f"const {', '.join(names)}: num;", "fun f(num): num level 1;", "clause [x:num, y:num] x <= y -> f(x) <= f(y);"]
    lines += [f"query {left} < {right};" for left, right in zip(names, names[1:])]
    lines += [f"query f({name}) = {n};" for n, name in enumerate(names[:-1])]
    lines += [f"query f({names[-1]}) = {count - 1 - gap};"]
    return lines


def turned(count):
    """A rising function with rising values at constants, of which the last is below the first; nothing else orders them."""
    names = [f"c{n}" for n in range(count)]
    lines = [f"const {', '.join(names)}: num;", "fun f(num): num level 1;", "clause [x:num, y:num] x <= y -> f(x) <= f(y);"]
    lines += [f"query f({name}) = {n};" for n, name in enumerate(names)]
    return lines + [f"query {names[-1]} < {names[0]};"]


def by_cases(count, last):
    """A function that is a whole number in each of so many intervals of length 1, at a constant between 0 and their end."""
    lines = ["const d: num;", "fun f(num): num level 1;"]
    lines += [f"clause [x:num] {n} <= x & x < {n + 1} -> f(x) = {n};" for n in range(count)]
    return lines + ["query 0 <= d;", f"query d < {count};", last]


def two_arrays(count, last):
    """Two arrays that rise, at constants that nothing orders."""
    names = [f"c{n}" for n in range(count)]
    lines = [f"const {', '.join(names)}: idx;", "fun a(idx): num level 1;", "fun b(idx): num level 1;"]
    lines += [f"clause [i:idx, j:idx] i <= j -> {f}(i) <= {f}(j);" for f in "ab"]
    return lines + [f"query a({name}) >= 0;" for name in names] + [last]


def moved(count, apart):
    """An array with steps of 1 at constants in a row, and a copy of it but for one element, which is moved by less, or by more."""
    names = [f"c{n}" for n in range(count)]
    at = names[count // 2]
    lines = [f"const {', '.join(names)}: idx;", "fun a(idx): num level 1;", "fun b(idx): num level 1;"]
    lines += [f"clause [i:idx] i {relation} {at} -> b(i) = a(i);" for relation in "<>"]
    lines += [f"query {left} < {right};" for left, right in zip(names, names[1:])]
    lines += [f"query a({left}) + 1 <= a({right});" for left, right in zip(names, names[1:])]
    lines += [f"query b({at}) = a({at}) + {apart};"]
    return lines + ["query " + " | ".join(f"b({right}) < b({left})" for left, right in zip(names, names[1:])) + ";"]


def many_tuples(count):
    """A clause of three variables over so many elements."""
    clause = "clause [i:idx, j:idx, k:idx] i <= j & j <= k -> a(j) <= a(i) + a(k);"
    return ["fun a(idx): num level 1;", clause] + [f"query a({n}) = 0;" for n in range(count)]


def function_chain(count):
    """Each constant is a function of the one before, the first two are equal, and the last is another."""
    names = ", ".join(f"c{at}" for at in range(count + 1))
    steps = [f"query c{at + 1} = f(c{at});" for at in range(count)]
    ends = ["query c1 = c0;", f"query c{count} != c0;"]
    return [f"const {names}: num;", "fun f(num): num level 1;"] + steps + ends


def function_choice(count):
    """The same, where the first two constants are equal in each of two cases."""
    lines = function_chain(count)
    first = lines.index("query c1 = c0;")
    return ["const d: num;"] + lines[:first] + ["query d = c1;", "query c1 = c0 | d = c0;"] + lines[first + 1 :]


def main():
    rng = random.Random(7)
    write("clauses.hp", clauses())
    write("queries.hp", ["query 1<0;"] * (MEGABYTE // 11))
    write("compared.hp", compared(random.Random(11), 2000, False))
    write("guarded.hp", compared(random.Random(11), 2000, True))
    write("empty.hp", [])
    write("constants.hp", constants(4000))
    write("wide.hp", wide(rng))
    write("chain.hp", chain(1900))
    write("ring.hp", ring(1900))
    write("linear.hp", linear(random.Random(1), 60, 20, -10, 10))
    write("linear-loose.hp", linear(random.Random(2), 60, 20, 2, 30))
    write("linear-tight.hp", linear(random.Random(3), 60, 20, -2, 10))
    write("large-10.hp", large(random.Random(5), 20, 10, 0))
    write("large-20.hp", large(random.Random(5), 40, 20, 0))
    write("large-late-10.hp", large(random.Random(1), 60, 10, -10_000))
    write("large-late-15.hp", large(random.Random(1), 90, 15, -10_000))
    write("apart.hp", apart(1900))
    write("strained.hp", strained(random.Random(1), 1900))
    write("num-chain.hp", num_chain(60, False))
    write("num-ring.hp", num_chain(60, True))
    write("num-choices.hp", num_choices(random.Random(5), 5))
    for count in (20, 40, 300):
        write(f"applications-{count}.hp", applications(count))
    for count in (10, 15, 50, 100, 300):
        write(f"function-chain-{count}.hp", function_chain(count))
    write("function-choice-300.hp", function_choice(300))
    for count in (10, 20, 40, 180):
        write(f"rising-{count}.hp", rising(count, 0))
        write(f"rising-{count}-late.hp", rising(count, 2))
    for count in (10, 20):
        write(f"turned-{count}.hp", turned(count))
    for count in (20, 60, 200):
        write(f"cases-{count}.hp", by_cases(count, f"query f(d) > {count - 2};"))
        write(f"cases-{count}-late.hp", by_cases(count, "query f(d) > d;"))
    for count in (16, 64):
        write(f"arrays-{count}.hp", two_arrays(count, "query 1 < 0;"))
        write(f"arrays-{count}-open.hp", two_arrays(count, "query 0 < 1;"))
    for count in (4, 8, 16):
        write(f"moved-{count}.hp", moved(count, "1/2"))
        write(f"moved-{count}-far.hp", moved(count, "3/2"))
    write("tuples-36.hp", many_tuples(36))
    write("tuples-37.hp", many_tuples(37))
    for jobs in (4, 5, 6, 7):
        write(f"machine-{jobs}-fits.hp", one_machine(rng, jobs, 0))
        write(f"machine-{jobs}-late.hp", one_machine(rng, jobs, -1))


if __name__ == "__main__":
    main()
