"""Jobs of up to 1,100 sweeps in which the checks at sweeps 256, 260 and 1,000 decide, for runs.py and jobs.py.

The tolerances are set by what oracle/model.py measures at a sweep. A schedule of checks is a function of the sweep, the minimum and the most; under each
of the wrong ones here some job stops elsewhere or with another objective, which is held when the jobs are made.
"""
import functools
import math
import random

import gen
import model


# ---- schedules ------------------------------------------------------------------------------------


def due(sweep, minimum, most):
    """01: at sweep 1, the minimum, the most, and every 20th."""
    return sweep in (1, minimum, most) or sweep % 20 == 0


WRONG = {
    "the 20th by the sweep modulo 256": lambda s, minimum, most: s in (1, minimum, most) or s % 256 % 20 == 0,
    "sweeps counted in 8 bits": lambda s, minimum, most: due(s % 256, minimum, most),
    "one at 256 too": lambda s, minimum, most: due(s, minimum, most) or s == 256,
    "none at 256": lambda s, minimum, most: due(s, minimum, most) and s != 256,
    "none at 260": lambda s, minimum, most: due(s, minimum, most) and s != 260,
    "none at 1,000": lambda s, minimum, most: due(s, minimum, most) and s != 1000,
    "none from 256 on but the most": lambda s, minimum, most: due(s, minimum, most) and (s < 256 or s == most),
    "none from 1,000 on but the most": lambda s, minimum, most: due(s, minimum, most) and (s < 1000 or s == most),
}


# ---- what a run meets -------------------------------------------------------------------------------


class Path:
    """The objective at open, and objective, residual and norm (at least 1.0) after each sweep, whether a check is due or not."""

    def __init__(self, job):
        n, entries, c, settings, *_ = model.read_job(gen.record(job))
        table = model.sign_table(n, entries, c)
        run, work = model.opened(n, entries, c, settings), model.set_aside(table)
        self.rule, self.start, self.diagonal_sum, self.met = run.rule, run.last, model.total(model.diagonal(n + 1, table)), []
        factor = run.factor
        for _ in range(run.most):
            factor = model.step(run.rule, run.number, work, factor)
            _, objective, residual, norm = model.measured(work, factor)
            self.met.append((objective, residual, max(norm, 1.0)))

    def stop(self, minimum, most, objective_tolerance, stationarity_tolerance, schedule=due):
        """Status, sweeps and last objective where the run stops."""
        last = self.start
        for sweep, (new, _, _) in enumerate(self.met[:most], 1):
            if not schedule(sweep, minimum, most):
                continue
            previous, last = last, new
            if sweep >= minimum and self.settles(sweep, stationarity_tolerance):
                return 1, sweep, last
            if self.rule <= 2 and abs(new - previous) < objective_tolerance:
                return 1, sweep, last
            if self.rule <= 2 and new > previous:
                return 2, sweep, last
        return 0, most, last

    def settles(self, sweep, tolerance):
        _, residual, norm = self.met[sweep - 1]
        return residual <= tolerance * norm

    def residual_at(self, sweep):
        """A stationarity tolerance that the sweep meets by a last bit, and none before it meets."""
        _, residual, norm = self.met[sweep - 1]
        tolerance = residual / norm
        if not self.settles(sweep, tolerance):
            tolerance = math.nextafter(tolerance, math.inf)
        assert [k for k in range(1, sweep + 1) if self.settles(k, tolerance)] == [sweep]
        return tolerance

    def change_at(self, sweep):
        """The least objective tolerance that the sweep meets, where the check before it was 20 sweeps ago."""
        return math.nextafter(abs(self.met[sweep - 1][0] - self.met[sweep - 21][0]), math.inf)


# ---- the jobs ---------------------------------------------------------------------------------------


def hall(rng, n, loose):
    """Every pair has a cost. A loose hall is two groups with heavy costs inside and light ones between, the anchor in the first: rules 1 and 3 are slow there too."""
    h = {}
    for i in range(n):
        for k in range(i, n):
            heavy = loose and (i < n // 2) == (k < n // 2)
            h[i, k] = h[k, i] = rng.randint(-9, 9) * (500 if heavy else 1)
    c = [rng.randint(-9, 9) for _ in range(n)]
    if loose:
        c[n // 2 :] = [-sum(h[i, k] for k in range(n)) // 2 for i in range(n // 2, n)]
    return gen.entries(h), c


def base(seed, rule, number):
    """A job of 1,100 sweeps that no tolerance stops."""
    rng = random.Random(f"long {seed}")
    n, rank = 3 + seed % 5, 2 + seed % 3
    entries, c = hall(rng, n, rule in (1, 3))
    return gen.base(
        n=n, entries=entries, c=c, rank=rank, rule=rule, number=gen.bits(number), most=1100, width=1 + seed % 3, start=0,
        start_numbers=gen.numbers(rng, (n + 1) * rank, "usual"), draw_count=1, draws=gen.numbers(rng, rank, "usual"),
        objective_tolerance=0, stationarity_tolerance=gen.bits(-1.0))


@functools.cache
def path(*run):
    return Path(base(*run))


# Runs (seed, rule, the rule's number) whose residual falls as the cases ask, a run of each rule; and runs whose objective first rises at a check.
FALLING = [(7, 0, 0.001), (2, 1, 0.0001), (11, 2, 0.001), (13, 3, 0.0), (1, 4, 0.99)]
RISING = [((30, 0, 0.05), 260), ((33, 2, 0.04), 1000)]


class Case:
    """A job, what it is, its path and limits, and its stop: status, sweeps and last objective. The sweep `settled` meets the stationarity tolerance, the
    check at `changed` the objective tolerance."""

    def __init__(self, run, stop, settled=None, changed=None, minimum=0, most=1003):
        self.path = path(*run)
        objective = self.path.change_at(changed) if changed else 0.0
        stationarity = self.path.residual_at(settled) if settled else -1.0
        self.limits = minimum, most, objective, stationarity
        self.stop = self.path.stop(*self.limits)
        assert self.stop[:2] == stop, (run, stop, self.stop)
        self.job = base(*run) | {
            "minimum": minimum, "most": most, "objective_tolerance": gen.bits(objective), "stationarity_tolerance": gen.bits(stationarity)}
        why = f"settled at {settled}" if settled else f"changed little at {changed}" if changed else "no tolerance"
        self.text = f"rule {run[1]}, {why}, minimum {minimum}, most {most}: status {stop[0]} at {stop[1]}"

    def relaxed_objective(self):
        return gen.bits(self.stop[2] + self.path.diagonal_sum)


def cases():
    for run in FALLING:
        yield Case(run, (1, 260), settled=256)
        yield Case(run, (1, 260), settled=260)
        yield Case(run, (1, 1000), settled=1000)
        yield Case(run, (1, 256), settled=256, minimum=256)
        yield Case(run, (1, 1001), settled=1000, minimum=1001)
        yield Case(run, (0, 1003))
    for run in FALLING[:3]:
        yield Case(run, (1, 1000), changed=1000)
    yield Case(FALLING[1], (1, 260), changed=260)
    yield Case(FALLING[3], (1, 1020), settled=1003, most=1100)
    yield Case(FALLING[4], (1, 256), settled=256, most=256)
    for run, sweep in RISING:
        yield Case(run, (2, sweep))


def telling(found):
    """For each wrong schedule the cases that it would answer otherwise."""
    told = {name: [case.text for case in found if case.path.stop(*case.limits, schedule) != case.stop] for name, schedule in WRONG.items()}
    assert all(told.values()), told
    return told
