"""Slips that look right: the model with one rule got wrong in each.

A case that names a slip says at which event, or at which task's totals, the slip's
line first differs from the rule's, so that the case is known to tell the two apart.
"""

from model import ARRIVE, DIRECT_BLOCKING, PASS, SUSPENDED, SUSPENDED_OTHERWISE, Session


def signed(value, bits):
    value %= 1 << bits
    return value - (1 << bits) if value >> (bits - 1) else value


class Slip(Session):
    def assert_sound(self):
        pass                    # a slip leaves states that are not sound


class SignedDeadlines(Slip):
    """Compares 16-bit deadlines as signed numbers."""

    def own_priority(self, job):
        return (signed(self.tasks[job].deadline, 16), job)


class SignedDifference(Slip):
    """Compares 16-bit deadlines by the sign of their 16-bit difference."""

    class Rank:
        def __init__(self, deadline, job):
            self.deadline, self.job = deadline, job

        def __lt__(self, other):
            difference = signed(self.deadline - other.deadline, 16)
            return difference < 0 or (difference == 0 and self.job < other.job)

    def own_priority(self, job):
        return self.Rank(self.tasks[job].deadline, job)


class NarrowDeadlines(Slip):
    """Holds deadlines in the 32 bits of the clock."""

    def own_priority(self, job):
        return (self.tasks[job].deadline % (1 << 32), job)


class PreemptsRunning(Slip):
    """Preempts the lowest-priority running preemptable job, not the linked one."""

    def arrive_or_resume(self, comer):
        if None in self.linked:
            super().arrive_or_resume(comer)
            return
        places = [k for k, job in enumerate(self.running) if not self.non_preemptable(job)]
        if places:
            k = max(places, key=lambda place: self.priority(self.running[place]))
            if self.higher(comer, self.running[k]):
                self.linked[k] = self.running[k] = comer


class SuspendsFirst(Slip):
    """Suspends a waiter before the holder inherits."""

    def wait_suspended(self, t, resource):
        self.tasks[t].asked = resource
        self.tasks[t].standing = SUSPENDED
        self.leave(t)
        self.queue[self.group[resource]].append(t)


class DropsInheritance(Slip):
    """Drops the inheritance when a long lock passes to a new holder."""

    def __init__(self, setup):
        super().__init__(setup)
        self.forgotten = set()

    def next_holds(self, name):
        first = super().next_holds(name)
        self.forgotten = (self.forgotten - {first}) | set(self.queue[name])
        return first

    def priority(self, job):
        kept = self.queue
        self.queue = {name: [t for t in queue if t not in self.forgotten]
                      for name, queue in kept.items()}
        try:
            return super().priority(job)
        finally:
            self.queue = kept


class RunsDisplacing(Slip):
    """Lets a comer run whenever the job whose link it took is preemptable."""

    def arrive_or_resume(self, comer):
        before = list(self.linked)
        super().arrive_or_resume(comer)
        if comer in self.linked:
            k = self.linked.index(comer)
            if before[k] is not None and not self.non_preemptable(before[k]):
                self.running[k] = comer


class StaysOnQ(Slip):
    """Leaves the moved job on q, as Figure 2 of the source prints in line 35."""

    def freed(self, k):
        moved = self.moved_links
        super().freed(k)
        if self.moved_links > moved:
            self.running[k] = None


# ---- the two totals of suspended jobs ----

class RanksRunnable(Slip):
    """Ranks a suspended job among the runnable jobs only."""

    def rivals(self, t):
        return [job for job in super().rivals(t) if self.runnable(job)]


class RanksByEffective(Slip):
    """Ranks by effective priority, so that a raised holder counts as a rival."""

    def rivals(self, t):
        return [job for job in self.jobs() if self.higher(job, t)]


class RanksByDeadline(Slip):
    """Ranks by deadline alone: of equal ones neither is higher."""

    def rivals(self, t):
        return [job for job in self.jobs() if self.tasks[job].deadline < self.tasks[t].deadline]


class EqualIsHigher(Slip):
    """Counts every other job with an equal deadline as a rival."""

    def rivals(self, t):
        return [job for job in self.jobs() if job != t and self.tasks[job].deadline <= self.tasks[t].deadline]


class AllowsMRivals(Slip):
    """Takes a job with m rivals for one of the m highest."""

    def one_of_the_m_highest(self, t):
        return len(self.rivals(t)) <= self.setup.processors


class SwapsTotals(Slip):
    """Puts direct blocking last."""

    def total_of(self, t):
        swapped = {DIRECT_BLOCKING: SUSPENDED_OTHERWISE, SUSPENDED_OTHERWISE: DIRECT_BLOCKING}
        total = super().total_of(t)
        return swapped.get(total, total)


class RanksOnce(Slip):
    """Ranks a job when it suspends, and keeps to that until it resumes."""

    def __init__(self, setup):
        super().__init__(setup)
        self.kept = {}

    def wait_suspended(self, t, resource):
        self.kept[t] = super().one_of_the_m_highest(t)
        super().wait_suspended(t, resource)

    def one_of_the_m_highest(self, t):
        return self.kept[t]


class RanksAfter(Slip):
    """Ranks a suspended job in the state after the event, not in the one before it."""

    def charge(self, ticks):
        super().charge(ticks)
        self.charged = [(t, self.total_of(t), ticks) for t in self.jobs()
                        if self.tasks[t].standing == SUSPENDED]

    def event(self, kind, t, resource, tick):
        self.charged = []
        answer = super().event(kind, t, resource, tick)
        for job, total, ticks in self.charged:
            self.tasks[job].totals[total] -= ticks
            after = DIRECT_BLOCKING if self.one_of_the_m_highest(job) else SUSPENDED_OTHERWISE
            self.tasks[job].totals[after] += ticks
        return answer


# ---- why a job is not on a processor ----

class TellsNoneApart(Slip):
    """Answers 19 for a suspended job as well."""

    def job_refusal(self, kind, t, resource):
        answer = super().job_refusal(kind, t, resource)
        return 19 if answer == 26 else answer


class TellsAllSuspended(Slip):
    """Answers 26 for every job on no processor."""

    def job_refusal(self, kind, t, resource):
        answer = super().job_refusal(kind, t, resource)
        return 26 if answer == 19 else answer


class TellsSuspendedLast(Slip):
    """Judges 26 where its number stands, after 21 to 25."""

    def job_refusal(self, kind, t, resource):
        task = self.tasks[t]
        if task.standing != SUSPENDED:
            return super().job_refusal(kind, t, resource)
        return self.lock_refusal(kind, task, resource) or 26


class TellsSuspendedFirst(Slip):
    """Judges 26 before 16, so that the arrival of a suspended job gets it too."""

    def arrival_refusal(self, task, now):
        return 26 if task.standing == SUSPENDED else super().arrival_refusal(task, now)


class TellsSuspendedBeforeTime(Slip):
    """Judges 26 before 14 and 15."""

    def refusal(self, kind, t, resource, tick):
        answer = super().refusal(kind, t, resource, tick)
        if answer in (14, 15) and kind not in (ARRIVE, PASS) and self.tasks[t].standing == SUSPENDED:
            return 26
        return answer


class TellsSuspendedUntilRun(Slip):
    """Takes a job that suspended for suspended until it runs again."""

    def __init__(self, setup):
        super().__init__(setup)
        self.asleep = set()

    def job_refusal(self, kind, t, resource):
        self.asleep -= set(self.running)
        answer = super().job_refusal(kind, t, resource)
        return 26 if answer == 19 and t in self.asleep else answer

    def wait_suspended(self, t, resource):
        super().wait_suspended(t, resource)
        self.asleep.add(t)
