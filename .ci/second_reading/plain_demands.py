#!/usr/bin/env python3
"""A second reading of the tests of plans with terms, from their definitions in words alone.

It makes plans at random, judges each by plain loops over all lengths, and on those that pass plays arrivals that are as
bad as the terms allow: nothing may be late, and nothing refused for tokens. On those that fail by demand it plays the
interval that is overfull: something must be late. It needs no prover and no program of the repository.

    .ci/second_reading/plain_demands.py [--plans N] [--seed S]
"""
import argparse
import heapq
import random
import sys
from dataclasses import dataclass
from fractions import Fraction

LIFE = 600  # slots of a life, in place of 1,048,576, so that each length can be looked at


@dataclass
class Task:
    period: int
    deadline: int
    held: int
    work: int
    writes: int
    collect_period: int
    collect_deadline: int
    cap: int = 0


@dataclass
class Plan:
    pages: int
    erase: int
    alpha: int
    tasks: list

    def collection(self):
        """The most slots of a collection: two for each page that it may copy, and its erase."""
        return 2 * (self.pages - self.alpha) + self.erase


def most_in(amount, period, deadline, length):
    """What comes back to back from the start of an interval, and is due by its end."""
    total, at = 0, 0
    while at + deadline <= length:
        total += amount
        at += period
    return total


def demands(plan, life):
    """The demand of each length, by adding up what gets due there."""
    due = [0] * (life + 1)
    for t in plan.tasks:
        for amount, period, deadline in (
            (t.work, t.period, t.deadline),
            (plan.collection(), t.collect_period, t.collect_deadline),
        ):
            for at in range(deadline, life + 1, period):
                due[at] += amount
    total, out = 0, []
    for amount in due:
        total += amount
        out.append(total)
    return out


def plain_demand_test(plan, life):
    """(passes, shortest overfull length or None, its excess, least slack or None)."""
    found = demands(plan, life)
    for length, demand in enumerate(found):
        if demand > length:
            return False, length, demand - length, None
    return True, None, 0, min(l - d for l, d in enumerate(found) if d > 0)


def load(plan):
    return sum(
        t.work * 10**6 // t.period + plan.collection() * 10**6 // t.collect_period for t in plan.tasks
    )


def last_deadline(plan, end):
    best = 0
    for t in plan.tasks:
        for period, deadline in ((t.period, t.deadline), (t.collect_period, t.collect_deadline)):
            if deadline < end:
                best = max(best, deadline + (end - 1 - deadline) // period * period)
    return best


def quick_short(plan, limit, slack, looks):
    """A length up to the limit with less than this slack, looked for from above at deadlines alone."""
    end = limit + 1
    while end > 0:
        length = last_deadline(plan, end)
        looks[0] += 1
        demand = sum(
            most_in(t.work, t.period, t.deadline, length)
            + most_in(plan.collection(), t.collect_period, t.collect_deadline, length)
            for t in plan.tasks
        )
        if demand == 0:
            return None
        if demand + slack > length:
            return length
        end = demand + slack
    return None


def quick_demand_test(plan, life, looks):
    known = quick_short(plan, life, 0, looks)
    if known is not None:
        fit, over = 0, known
        while over - fit > 1:
            half = (fit + over) // 2
            found = quick_short(plan, half, 0, looks)
            if found is None:
                fit = half
            else:
                over = found
        return False, over, demands(plan, life)[over] - over, None
    slack, above = 0, life + 1
    while above - slack > 1:
        half = (slack + above) // 2
        if quick_short(plan, life, half, looks) is None:
            slack = half
        else:
            above = half
    return True, None, 0, slack


def supply_test(plan):
    """None, or the first task that runs short and what would do."""
    for place, t in enumerate(plan.tasks):
        # what collections give, a slot, against what is written
        if t.writes and Fraction(plan.alpha, t.collect_period) < Fraction(t.writes, t.period):
            most = max((q for q in range(1, t.collect_period) if plan.alpha * t.period >= t.writes * q), default=0)
            return place, "collect_period", most
        need = t.writes + Fraction(t.writes * t.held, t.period) + 2 * plan.alpha
        if t.cap < need:
            return place, "cap", -(-need.numerator // need.denominator)
    return None


# Arrivals: (at, release, due, operations, writes)


def bursts(task, rng, life, kind):
    """Jobs as often and as large as the terms allow, split as may be, from an offset on."""
    jobs = []
    start = {"together": 0, "offset": rng.randrange(task.period), "ends": task.period - 1}[kind]
    at, released, written = start, [], []
    while at < life:
        ops = task.work - sum(n for s, n in released if s > at - task.period)
        wr = task.writes - sum(n for s, n in written if s > at - task.period)
        ahead = rng.choice((0, task.held - task.deadline)) if kind != "together" else 0
        if ops > 0 and ahead == 0:
            share = ops if kind != "offset" or rng.random() < 0.5 else rng.randint(1, ops)
            give = min(wr, share)
            jobs.append((at, at, at + rng.choice((task.deadline, task.held)), share, give))
            released.append((at, share))
            written.append((at, give))
        elif ops > 0:
            # it comes before its release, and is due its deadline after that: operations count at the release
            release = at + ahead
            if all(abs(s - release) >= task.period for s, _ in released):
                share, give = task.work, min(wr, task.work)
                jobs.append((at, release, release + task.deadline, share, give))
                released.append((release, share))
                written.append((at, give))
        at += rng.choice((1, task.period, max(1, task.period - 1))) if kind != "together" else task.period
    return [j for j in jobs if j[2] <= life]


def keeps(task, jobs):
    """What is released in any period has at most `work` operations, what comes in any at most `writes` writes."""
    for place, amount, limit in ((1, 3, task.work), (0, 4, task.writes)):
        for job in jobs:
            start = job[place]
            if sum(o[amount] for o in jobs if start <= o[place] < start + task.period) > limit:
                return False
    return all(
        a <= r and r + task.deadline <= d <= a + task.held and 1 <= o and w <= o for a, r, d, o, w in jobs
    )


def play(plan, jobs_of, life):
    """Earliest deadline first, slot by slot. Each collection takes its most slots, and gives alpha tokens, up to the cap,
    when it is due, as late as may be. Tokens go when a job comes; a page is free again when a collection gave it.
    Returns (greatest lateness, refused for tokens)."""
    queue, arrivals = [], []
    for n, jobs in enumerate(jobs_of):
        for at, release, due, ops, writes in jobs:
            arrivals.append((at, 1, n, release, due, ops, writes))
    for n, t in enumerate(plan.tasks):
        for at in range(0, life, t.collect_period):
            if at + t.collect_deadline <= life:
                arrivals.append((at, 0, n, at, at + t.collect_deadline, plan.collection(), 0))
                arrivals.append((at + t.collect_deadline, -1, n, 0, 0, 0, 0))
    arrivals.sort()
    held = [[] for _ in plan.tasks]
    balance = [t.cap for t in plan.tasks]
    waiting, late, refused, i, number = [], 0, 0, 0, 0
    for slot in range(life + 1):
        while i < len(arrivals) and arrivals[i][0] == slot:
            at, kind, n, release, due, ops, writes = arrivals[i]
            i += 1
            if kind == -1:
                # a page that a job still holds counts against the cap
                kept = [(d, w) for d, w in held[n] if d > slot]
                held[n] = kept
                balance[n] = min(balance[n] + plan.alpha, max(balance[n], plan.tasks[n].cap - sum(w for _, w in kept)))
                continue
            if writes > balance[n]:
                refused += 1
                continue
            balance[n] -= writes
            if writes:
                held[n].append((due, writes))
            number += 1
            heapq.heappush(waiting, (release, due, number, ops))
        while waiting and waiting[0][0] <= slot:
            release, due, k, ops = heapq.heappop(waiting)
            heapq.heappush(queue, [due, k, ops])
        if queue:
            queue[0][2] -= 1
            if queue[0][2] == 0:
                late = max(late, slot + 1 - heapq.heappop(queue)[0])
    for due, _, ops in queue:
        if due <= life:
            late = max(late, life + ops - due)
    return late, refused


def random_plan(rng):
    pages = rng.randint(2, 8)
    plan = Plan(pages, rng.randint(1, 6), rng.randint(1, pages), [])
    for _ in range(rng.randint(1, 3)):
        period = rng.choice((rng.randint(1, 40), rng.randint(20, 150), 2 * LIFE))
        deadline = rng.randint(1, min(LIFE, 2 * period))
        held = deadline if rng.random() < 0.6 else rng.randint(deadline, min(LIFE, 3 * deadline))
        work = rng.randint(1, max(1, min(period, deadline) // 2 + 1))
        writes = rng.randint(0, work)
        most = plan.alpha * period // writes if writes else 100
        collect_period = max(1, min(LIFE, rng.choice((most, rng.randint(1, max(1, most)), most + 1))))
        collect_deadline = rng.randint(max(1, collect_period // 2), collect_period)
        t = Task(period, deadline, held, work, writes, collect_period, collect_deadline)
        need = writes + Fraction(writes * held, period) + 2 * plan.alpha
        t.cap = max(1, -(-need.numerator // need.denominator) - (rng.random() < 0.1))
        plan.tasks.append(t)
    return plan


def overfull_arrivals(plan, life):
    """All tasks at once, back to back, each due as soon as may be: what the demand of each length counts."""
    return [
        [(at, at, at + t.deadline, t.work, 0) for at in range(0, life, t.period) if at + t.deadline <= life]
        for t in plan.tasks
    ]


def main():
    args = argparse.ArgumentParser()
    args.add_argument("--plans", type=int, default=1000)
    args.add_argument("--seed", type=int, default=1)
    asked = args.parse_args()
    rng = random.Random(asked.seed)
    passed = failed = runs = brink = most_looks = supplied = 0
    for number in range(asked.plans):
        plan = random_plan(rng)
        looks = [0]
        plain, quick = plain_demand_test(plan, LIFE), quick_demand_test(plan, LIFE, looks)
        most_looks = max(most_looks, looks[0])
        if plain != quick:
            print(f"plan {number}: over all lengths {plain}, at deadlines alone {quick}: {plan}")
            return 1
        if not plain[0]:
            failed += 1
            late, _ = play(plan, overfull_arrivals(plan, LIFE), LIFE)
            if late <= 0:
                print(f"plan {number} fails, and nothing is late: {plan}")
                return 1
            continue
        if supply_test(plan) is not None or load(plan) > 10**6:
            continue
        passed += 1
        brink += plain[3] == 0
        for kind in ("together", "offset", "ends"):
            jobs = [bursts(t, rng, LIFE, kind) for t in plan.tasks]
            for task, own in zip(plan.tasks, jobs):
                if not keeps(task, own):
                    print(f"plan {number}: these arrivals don't keep their terms: {task} {own}")
                    return 1
            late, refused = play(plan, jobs, LIFE)
            runs += 1
            if late > 0 or refused > 0:
                print(f"plan {number} passes, {kind}: late by {late}, {refused} refused: {plan} {jobs}")
                return 1
    print(
        f"{asked.plans} plans: {passed} pass both tests, {brink} of them with no slot left; {runs} runs, nothing late, "
        f"nothing refused; {failed} fail by demand, each late; at most {most_looks} looks"
    )
    return 0


if __name__ == "__main__":
    sys.exit(main())
