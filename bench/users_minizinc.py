"""The families of `users.py` as MiniZinc models, from the same plain words, and their data."""

MODELS = {
    "job_shop": """
        include "disjunctive.mzn";
        int: horizon = sum(duration); array[JOB, STEP] of var 0..horizon: start;
        constraint forall(j in JOB, s in STEP where s > 1)(start[j, s - 1] + duration[j, s - 1] <= start[j, s]);
        constraint forall(m in 0..machines - 1)(disjunctive(
          [start[j, s] | j in JOB, s in STEP where machine[j, s] = m],
          [duration[j, s] | j in JOB, s in STEP where machine[j, s] = m]));
        var 0..horizon: end = max(j in JOB, s in STEP)(start[j, s] + duration[j, s]);
        solve minimize end; output ["\\(end)"];
    """,
    "open_shop": """
        include "disjunctive.mzn";
        int: horizon = sum(duration); array[JOB, STEP] of var 0..horizon: start;
        constraint forall(j in JOB)(disjunctive(row(start, j), row(duration, j)));
        constraint forall(m in STEP)(disjunctive(col(start, m), col(duration, m)));
        var 0..horizon: end = max(j in JOB, s in STEP)(start[j, s] + duration[j, s]);
        solve minimize end; output ["\\(end)"];
    """,
    "bacp": """
        array[1..courses] of var 1..periods: period;
        constraint forall(i in 1..pairs)(period[earlier[i]] < period[later[i]]);
        array[1..periods] of var low..high: load;
        constraint forall(p in 1..periods)(load[p] = sum(c in 1..courses)(credits[c] * bool2int(period[c] = p)));
        constraint forall(p in 1..periods)(
          let { var int: number = sum(c in 1..courses)(bool2int(period[c] = p)) } in
          number >= fewest /\\ number <= most);
        var 0..high: greatest = max(load); solve minimize greatest; output ["\\(greatest)"];
    """,
    "bin_packing": """
        include "bin_packing.mzn";
        array[1..things] of var 1..things: bin; constraint bin_packing(capacity, bin, sizes);
        var 1..things: used = max(bin); solve minimize used; output ["\\(used)"];
    """,
    "steel_mill": """
        include "bin_packing_load.mzn";
        array[1..orders] of var 1..orders: slab; array[1..orders] of var 0..greatest: load;
        constraint bin_packing_load(load, slab, size);
        constraint forall(s in 1..orders)(
          sum(c in 1..colours)(bool2int(exists(o in 1..orders where colour[o] = c)(slab[o] = s))) <= 2);
        var int: lost = sum(s in 1..orders)(loss[load[s]]); solve minimize lost; output ["\\(lost)"];
    """,
    "warehouses": """
        array[1..shops] of var 1..houses: supplier; array[1..houses] of var bool: is_open;
        constraint forall(w in 1..houses)(sum(s in 1..shops)(bool2int(supplier[s] = w)) <= capacity[w]);
        constraint forall(s in 1..shops, w in 1..houses)(supplier[s] = w -> is_open[w]);
        var int: all = sum(s in 1..shops)(cost[s, supplier[s]]) + fixed * sum(w in 1..houses)(bool2int(is_open[w]));
        solve minimize all; output ["\\(all)"];
    """,
    "nonogram": """
        array[1..height, 1..width] of var 0..1: cell;
        predicate runs(array[int] of var 0..1: line, array[int] of int: length) =
          let { int: n = card(index_set(line)); array[index_set(length)] of var 1..n: at } in
          forall(i in index_set(length) where i > 1)(at[i - 1] + length[i - 1] + 1 <= at[i]) /\\
          forall(i in index_set(length))(at[i] + length[i] - 1 <= n) /\\
          forall(k in 1..n)(line[k] = 1 <-> exists(i in index_set(length))(at[i] <= k /\\ k < at[i] + length[i]));
        constraint forall(r in 1..height)(
          runs([cell[r, c] | c in 1..width], [rows[r, i] | i in 1..most where rows[r, i] > 0]));
        constraint forall(c in 1..width)(
          runs([cell[r, c] | r in 1..height], [columns[c, i] | i in 1..most where columns[c, i] > 0]));
        solve satisfy; output ["found"];
    """,
    "tour": """
        include "circuit.mzn";
        array[1..towns] of var 1..towns: to; constraint circuit(to);
        var int: length = sum(i in 1..towns)(distance[i, to[i]]); solve minimize length; output ["\\(length)"];
    """,
}


def table(rows):
    """Rows of numbers as MiniZinc has them."""
    return "[|" + "|".join(",".join(map(str, row)) for row in rows) + "|]"


def shop(jobs):
    """The sizes of a shop, and what each step takes."""
    steps = len(jobs[0])
    return f"set of int: JOB = 1..{len(jobs)}; set of int: STEP = 1..{steps};"


def job_shop(jobs):
    machines = table([[machine for machine, _ in steps] for steps in jobs])
    durations = table([[duration for _, duration in steps] for steps in jobs])
    count = 1 + max(machine for steps in jobs for machine, _ in steps)
    return (
        f"{shop(jobs)} int: machines = {count}; array[JOB, STEP] of int: machine = {machines};"
        f"array[JOB, STEP] of int: duration = {durations};"
    )


def open_shop(jobs):
    return f"{shop(jobs)} array[JOB, STEP] of int: duration = {table(jobs)};"


def bacp(data):
    periods, low, high, fewest, most = data["spec"]
    place = {it: at for at, it in enumerate(data["courses"], 1)}
    later = [place[it] for it, _ in data["prerequisites"]]
    earlier = [place[it] for _, it in data["prerequisites"]]
    return (
        f"int: periods = {periods}; int: low = {low}; int: high = {high}; int: fewest = {fewest};"
        f"int: most = {most}; int: courses = {len(place)}; int: pairs = {len(later)};"
        f"array[int] of int: credits = {[*data['courses'].values()]};"
        f"array[int] of int: later = {later}; array[int] of int: earlier = {earlier};"
    )


def bin_packing(data):
    sizes = data["sizes"]
    return (
        f"int: things = {len(sizes)}; int: capacity = {data['capacity']};"
        f"array[int] of int: sizes = {sizes};"
    )


def steel_mill(data):
    capacities, orders = data["capacities"], data["orders"]
    greatest, colours = max(capacities), [*dict.fromkeys(it for _, it in orders)]
    loss = [min(it for it in [0, *capacities] if it >= load) - load for load in range(greatest + 1)]
    return (
        f"int: orders = {len(orders)}; int: colours = {len(colours)}; int: greatest = {greatest};"
        f"array[int] of int: size = {[size for size, _ in orders]};"
        f"array[int] of int: colour = {[colours.index(it) + 1 for _, it in orders]};"
        f"array[0..greatest] of int: loss = array1d(0..greatest, {loss});"
    )


def warehouses(data):
    costs = data["supply_cost"]
    return (
        f"int: shops = {len(costs)}; int: houses = {len(costs[0])}; int: fixed = {data['fixed_cost']};"
        f"array[int] of int: capacity = {data['capacity']}; array[int, int] of int: cost = {table(costs)};"
    )


def nonogram(data):
    most = max(map(len, [*data["rows"], *data["columns"]]))
    padded = {
        name: table([[*it, *[0] * (most - len(it))] for it in data[name]]) for name in ("rows", "columns")
    }
    return (
        f"int: height = {len(data['rows'])}; int: width = {len(data['columns'])}; int: most = {most};"
        + "".join(f"array[int, int] of int: {name} = {it};" for name, it in padded.items())
    )


def tour(data):
    distances = data["distances"]
    return f"int: towns = {len(distances)}; array[int, int] of int: distance = {table(distances)};"


DATA = {
    "job_shop": job_shop,
    "open_shop": open_shop,
    "bacp": bacp,
    "bin_packing": bin_packing,
    "steel_mill": steel_mill,
    "warehouses": warehouses,
    "nonogram": nonogram,
    "tour": tour,
}
