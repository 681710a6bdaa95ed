"""Plans of shops, beside the trying of all orders; and mutants of what makes them."""
import itertools
import json
import random
import unittest
from unittest import mock

from beemodel import Model, interval, maximum, no_overlap
from beemodel import shops
from beemodel.guesses import Guessing
from trying import TOP


def jobs_of(rng, count=3, steps=3):
    """For each job its machines and durations, in order."""
    each = []
    for _ in range(count):
        machines = rng.sample(range(steps), steps)
        each.append([(machine, rng.randint(1, 9)) for machine in machines])
    return each


def model_of(jobs, goal):
    """A job shop, whose last end is sought as a greatest value or as a variable."""
    horizon = sum(duration for steps in jobs for _, duration in steps)
    model, machines, ends = Model(), {}, []
    for job, steps in enumerate(jobs):
        before = 0
        for step, (machine, duration) in enumerate(steps):
            start = model.int(f"s{job}_{step}", 0, horizon)
            model.add(start >= before)
            before = start + duration
            machines.setdefault(machine, []).append(interval(start, duration))
        ends.append(before)
    model.add(no_overlap(it) for it in machines.values())
    if goal == "greatest":
        model.minimize(maximum(ends))
        return model
    end = model.int("end", 0, horizon)
    model.add(end == maximum(ends) if goal == "equal" else [end >= it for it in ends])
    model.minimize(end)
    return model


def length_of(jobs, orders):
    """When all is done where each machine takes the jobs in an order, or none where it waits for
    ever."""
    places = {(job, machine): at for job, steps in enumerate(jobs) for at, (machine, _) in enumerate(steps)}
    done, last = {}, 0
    while len(done) < len(places):
        before = len(done)
        for job, steps in enumerate(jobs):
            for at, (machine, duration) in enumerate(steps):
                turn = orders[machine].index(job)
                wanted = [(job, at - 1)] if at else []
                if turn:
                    other = orders[machine][turn - 1]
                    wanted.append((other, places[other, machine]))
                if (job, at) not in done and all(it in done for it in wanted):
                    done[job, at] = max((done[it] for it in wanted), default=0) + duration
                    last = max(last, done[job, at])
        if len(done) == before:
            return None
    return last


def best_of(jobs):
    """The least length of all orders."""
    each = itertools.product(itertools.permutations(range(len(jobs))), repeat=len(jobs[0]))
    return min(it for it in (length_of(jobs, orders) for orders in each) if it is not None)


def planned(jobs, goal="greatest"):
    """What the plan of a shop comes to, and the starts of each job."""
    model = model_of(jobs, goal)
    guessing = Guessing(model, model.goal)
    length = guessing.plan_of_shop()
    starts = [[guessing.plan[f"s{job}_{at}"] for at in range(len(steps))] for job, steps in enumerate(jobs)]
    return length, starts


def is_plan(jobs, starts):
    """Whether starts keep the order of each job, and no two steps overlap on a machine."""
    spans = [
        (machine, start, start + duration)
        for steps, times in zip(jobs, starts)
        for (machine, duration), start in zip(steps, times)
    ]
    pairs = itertools.combinations(spans, 2)
    are_apart = all(a[0] != b[0] or a[2] <= b[1] or b[2] <= a[1] for a, b in pairs)
    ordered = [zip(zip(steps, times), times[1:]) for steps, times in zip(jobs, starts)]
    return are_apart and all(start + step[1] <= after for it in ordered for (step, start), after in it)


class Shops(unittest.TestCase):
    def test_small_shops_beside_all_orders(self):
        for at in range(12):
            with self.subTest(round=at):
                jobs = jobs_of(random.Random(f"shop {at}"))
                length, starts = planned(jobs)
                self.assertTrue(is_plan(jobs, starts))
                self.assertEqual(length, best_of(jobs))

    def test_forms_of_the_goal(self):
        jobs = jobs_of(random.Random("forms"), 4, 3)
        found = {planned(jobs, it)[0] for it in ("greatest", "least", "equal")}
        self.assertEqual(len(found), 1)

    def test_models_that_are_no_shop(self):
        model = Model()
        x, y, done = model.int("x", 0, 9), model.int("y", 0, 9), model.bool("done")
        model.add(no_overlap([interval(x, 3), interval(y, 2, done)]))
        model.minimize(maximum([x + 3, y + 2]))
        self.assertIsNone(Guessing(model, model.goal).plan_of_shop())
        model = Model()
        x, y = model.int("x", 0, 9), model.int("y", 0, 9)
        model.add(no_overlap([interval(x, 3), interval(y, 2)]))
        model.maximize(x + y)
        self.assertIsNone(Guessing(model, model.goal).plan_of_shop())

    def test_a_plan_that_breaks_another_constraint_is_none(self):
        model = Model()
        x, y = model.int("x", 0, 9), model.int("y", 0, 9)
        model.add(no_overlap([interval(x, 3), interval(y, 2)]), x + y >= 9)
        model.minimize(maximum([x + 3, y + 2]))
        guessing = Guessing(model, model.goal)
        self.assertIsNone(guessing.plan_of_shop())
        self.assertGreaterEqual(guessing.planned(), 8)

    def test_a_shop_of_ten_jobs(self):
        jobs = json.loads((TOP / "bench/shops.json").read_text())["ft10"]["jobs"]
        length, starts = planned(jobs)
        self.assertTrue(is_plan(jobs, starts))
        self.assertLess(length, 960)


MUTANTS = {
    "tasks that begin before the one before them has ended": lambda: mock.patch.object(
        shops.Shop, "links", lambda self, orders: LINKS(self, [it[:1] for it in orders])
    ),
    "jobs without their order": lambda: mock.patch.object(
        shops.Drawing, "take_comparison", lambda *them: None
    ),
    "a search that moves nothing, behind one bad plan": lambda: mock.patch.multiple(
        shops, PLANS=0, MOST=0
    ),
}
LINKS = shops.Shop.links


class Mutants(unittest.TestCase):
    def is_refused(self):
        """Whether some shop has no plan, or one that is none or not the best."""
        for at in range(12):
            jobs = jobs_of(random.Random(f"shop {at}"))
            try:
                length, starts = planned(jobs)
            except KeyError:
                return True
            if not is_plan(jobs, starts) or length != best_of(jobs):
                return True
        return False

    def test_plans_that_are_none_are_refused(self):
        for name, patch in MUTANTS.items():
            with self.subTest(mutant=name), patch():
                self.assertTrue(self.is_refused())


if __name__ == "__main__":
    unittest.main()
