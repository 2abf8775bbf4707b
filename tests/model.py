#!/usr/bin/env python3
"""The rules of document 01 with ticket 2, written as plainly as they can be read.

    python3 tests/model.py < FILE

prints what the stepping program prints for that block file. Nothing here is
shared with the crates: the two are compared by their output alone.

Words are document 01's: a job is named by its task, a lock is a group, and a
group is named by its lowest resource.
"""

import sys

# Limits ("Numbers").
MOST_PROCESSORS, MOST_TASKS, MOST_RESOURCES, MOST_PAIRS = 8, 32, 32, 64
MOST_OPEN = 8
LAST_CLOCK = 4_294_967_295
LAST_BLOCK = 999_999

SHORT, LONG = 0, 1
ARRIVE, FINISH, REQUEST, COMPLETE, PASS = 1, 2, 3, 4, 5

# Which fields each kind of event uses: (task, resource).
USES = {
    ARRIVE: (True, False),
    FINISH: (True, False),
    REQUEST: (True, True),
    COMPLETE: (True, True),
    PASS: (False, False),
}

# How a task's job stands.
ABSENT, PREEMPTABLE, HOLDS_SHORT, SPINS, SUSPENDED = (
    'absent', 'preemptable', 'holds a short', 'spins', 'suspended')

# The six totals, in the order printed.
TOTALS = 6
RUNNING, SPINNING, LINKED_NOT_RUNNING, READY, DIRECT_BLOCKING, SUSPENDED_OTHERWISE = range(TOTALS)


class SetUp:
    """The counts, the starting clock and the three tables, up to their counts."""

    def __init__(self, processors, tasks, resources, pair_count, start,
                 periods, kinds, pairs):
        self.processors = processors
        self.tasks = tasks
        self.resources = resources
        self.pair_count = pair_count
        self.start = start
        self.periods = periods
        self.kinds = kinds
        self.pairs = pairs

    def refusal(self):
        """0, or the first of 1 to 5 that applies."""
        if not (1 <= self.processors <= MOST_PROCESSORS
                and 1 <= self.tasks <= MOST_TASKS
                and 0 <= self.resources <= MOST_RESOURCES
                and 0 <= self.pair_count <= MOST_PAIRS):
            return 1
        if any(period == 0 for period in self.periods):
            return 2
        if any(kind not in (SHORT, LONG) for kind in self.kinds):
            return 3
        if any(outer >= self.resources or inner >= self.resources
               or outer == inner for outer, inner in self.pairs):
            return 4
        if any(self.kinds[outer] == SHORT and self.kinds[inner] == LONG
               for outer, inner in self.pairs):
            return 5
        return 0

    def groups(self):
        """Per resource, the name of its group."""
        group = list(range(self.resources))
        for _ in range(self.resources):     # so often that any chain is walked
            for outer, inner in self.pairs:
                if self.kinds[outer] == self.kinds[inner]:
                    name = min(group[outer], group[inner])
                    group[outer] = group[inner] = name
        return group


class Task:
    """What is known of one task: its job if it has one, and its totals."""

    def __init__(self, period):
        self.period = period
        self.standing = ABSENT
        self.deadline = None
        self.last_arrival = None
        self.open = []          # resources of the open requests, oldest first
        self.asked = None       # the resource a waiting job asked for
        self.totals = [0] * TOTALS
        self.ticks_pending = 0  # counted apart from the totals, to compare

    def pending(self):
        return self.standing != ABSENT

    def runnable(self):
        return self.standing not in (ABSENT, SUSPENDED)

    def non_preemptable(self):
        return self.standing in (SPINS, HOLDS_SHORT)


class Scheduler:
    """Links and placements. It asks of a job only how it stands and its priority."""

    def __init__(self, processors):
        self.linked = [None] * processors
        self.running = [None] * processors
        self.moved_links = 0    # how often 'runs non-preemptably on q' applied

    # What the layer above tells of each job.
    def jobs(self):
        raise NotImplementedError

    def runnable(self, job):
        raise NotImplementedError

    def non_preemptable(self, job):
        raise NotImplementedError

    def priority(self, job):
        """The effective priority; the lesser of two is the higher priority."""
        raise NotImplementedError

    def higher(self, job, other):
        return self.priority(job) < self.priority(other)

    def unlinked_runnable(self):
        return [job for job in self.jobs()
                if self.runnable(job) and job not in self.linked]

    def lowest_linked(self):
        """The processor whose linked job has the lowest priority."""
        return max(range(len(self.linked)),
                   key=lambda k: self.priority(self.linked[k]))

    def arrive_or_resume(self, comer):
        for k, job in enumerate(self.linked):
            if job is None:
                self.linked[k] = self.running[k] = comer
                return
        k = self.lowest_linked()
        displaced = self.linked[k]
        if self.higher(comer, displaced):
            self.linked[k] = comer
            if self.running[k] == displaced and not self.non_preemptable(displaced):
                self.running[k] = comer

    def become_preemptable(self, job):
        k = self.running.index(job)
        if self.linked[k] is not None and self.linked[k] != job:
            self.running[k] = self.linked[k]

    def leave(self, job):
        """Finish or suspend, on processor k."""
        k = self.running.index(job)
        self.running[k] = None
        if self.linked[k] == job:
            self.linked[k] = None
        self.freed(k)

    def freed(self, k):
        if self.linked[k] is not None:
            self.running[k] = self.linked[k]
            return
        candidates = self.unlinked_runnable()
        if not candidates:
            return
        chosen = min(candidates, key=self.priority)
        if chosen not in self.running:
            self.linked[k] = self.running[k] = chosen
            return
        q = self.running.index(chosen)
        moved = self.linked[q]
        self.linked[q] = chosen
        self.linked[k] = self.running[k] = moved
        self.moved_links += 1

    def give_way(self, completer):
        """The second step of an outermost long completion."""
        if any(self.higher(job, completer) for job in self.unlinked_runnable()):
            k = self.running.index(completer)
            self.linked[k] = self.running[k] = None
            self.freed(k)


class Session(Scheduler):
    """One accepted set-up and the state that its events have made."""

    def __init__(self, setup):
        super().__init__(setup.processors)
        self.setup = setup
        self.tasks = [Task(period) for period in setup.periods]
        self.group = setup.groups()
        self.holder = {name: None for name in self.group}
        self.queue = {name: [] for name in self.group}
        self.clock = setup.start
        self.moved_by = []      # kinds of event in which a link was moved to k

    # ---- what the scheduler is told ----

    def jobs(self):
        return [t for t, task in enumerate(self.tasks) if task.pending()]

    def runnable(self, job):
        return self.tasks[job].runnable()

    def non_preemptable(self, job):
        return self.tasks[job].non_preemptable()

    def own_priority(self, job):
        return (self.tasks[job].deadline, job)

    def priority(self, job):
        """Effective: the holder of a long group counts the jobs queued there."""
        counted = [self.own_priority(job)]
        for name, holder in self.holder.items():
            if holder == job and self.setup.kinds[name] == LONG:
                counted += [self.own_priority(waiter) for waiter in self.queue[name]]
        return min(counted)

    # ---- the clock and the totals ----

    def step_to(self, tick):
        return (tick - self.clock) % 65_536

    def rivals(self, t):
        """The pending jobs with a higher own priority than this one's, suspended ones counted."""
        return [job for job in self.jobs() if self.own_priority(job) < self.own_priority(t)]

    def one_of_the_m_highest(self, t):
        """Among all pending jobs; m is the number of processors."""
        return len(self.rivals(t)) < self.setup.processors

    def total_of(self, t):
        """Which of the six totals the ticks of this pending job go to."""
        if self.tasks[t].standing == SUSPENDED:
            return DIRECT_BLOCKING if self.one_of_the_m_highest(t) else SUSPENDED_OTHERWISE
        if t in self.running:
            return SPINNING if self.tasks[t].standing == SPINS else RUNNING
        return LINKED_NOT_RUNNING if t in self.linked else READY

    def charge(self, ticks):
        for t in self.jobs():
            self.tasks[t].totals[self.total_of(t)] += ticks
            self.tasks[t].ticks_pending += ticks

    # ---- refusals 10 to 26 ----

    def refusal(self, kind, t, resource, tick):
        """0, or the first of 10 to 26 that applies, in the list's order."""
        if kind not in USES:
            return 10
        uses_task, uses_resource = USES[kind]
        if uses_task and t >= self.setup.tasks:
            return 11
        if uses_resource and resource >= self.setup.resources:
            return 12
        if (not uses_task and t != 0) or (not uses_resource and resource != 0):
            return 13
        step = self.step_to(tick)
        if step >= 32_768:
            return 14
        if self.clock + step > LAST_CLOCK:
            return 15
        if kind == PASS:
            return 0
        if kind == ARRIVE:
            return self.arrival_refusal(self.tasks[t], self.clock + step)
        return self.job_refusal(kind, t, resource)

    def arrival_refusal(self, task, now):
        if task.pending():
            return 16
        if task.last_arrival is not None and now - task.last_arrival < task.period:
            return 17
        return 0

    def job_refusal(self, kind, t, resource):
        task = self.tasks[t]
        if not task.pending():
            return 18
        if task.standing == SUSPENDED:      # ticket 4: in 19's place
            return 26
        if t not in self.running:
            return 19
        if task.standing == SPINS:
            return 20
        return self.lock_refusal(kind, task, resource)

    def lock_refusal(self, kind, task, resource):
        if kind == FINISH:
            return 21 if task.open else 0
        if kind == REQUEST:
            return self.request_refusal(task, resource)
        return 0 if task.open and task.open[-1] == resource else 25

    def request_refusal(self, task, resource):
        kinds = self.setup.kinds
        if resource in task.open:
            return 22
        if kinds[resource] == LONG and any(kinds[r] == SHORT for r in task.open):
            return 23
        if any(kinds[r] == kinds[resource] and self.group[r] != self.group[resource]
               for r in task.open):
            return 23
        if len(task.open) == MOST_OPEN:
            return 24
        return 0

    # ---- events ----

    def event(self, kind, t, resource, tick):
        """The answer; a refused event leaves everything as it was."""
        answer = self.refusal(kind, t, resource, tick)
        if answer != 0:
            return answer
        step = self.step_to(tick)
        self.charge(step)
        self.clock += step
        moved = self.moved_links
        if kind == ARRIVE:
            self.arrive(t)
        elif kind == FINISH:
            self.finish(t)
        elif kind == REQUEST:
            self.request(t, resource)
        elif kind == COMPLETE:
            self.complete(t, resource)
        if self.moved_links > moved:
            self.moved_by.append(kind)
        self.assert_sound()
        return 0

    def arrive(self, t):
        task = self.tasks[t]
        task.standing = PREEMPTABLE
        task.last_arrival = self.clock
        task.deadline = self.clock + task.period
        self.arrive_or_resume(t)

    def finish(self, t):
        self.tasks[t].standing = ABSENT
        self.leave(t)
        self.tasks[t].deadline = None

    def same_kind_open(self, t, resource):
        kinds = self.setup.kinds
        return any(kinds[r] == kinds[resource] for r in self.tasks[t].open)

    def request(self, t, resource):
        name = self.group[resource]
        if self.same_kind_open(t, resource):
            self.tasks[t].open.append(resource)
        elif self.holder[name] is None:
            self.hold(t, resource)
        elif self.setup.kinds[resource] == SHORT:
            self.tasks[t].standing = SPINS
            self.tasks[t].asked = resource
            self.queue[name].append(t)
        else:
            self.wait_suspended(t, resource)

    def hold(self, t, resource):
        self.holder[self.group[resource]] = t
        self.tasks[t].open.append(resource)
        self.tasks[t].asked = None
        self.tasks[t].standing = (
            HOLDS_SHORT if self.setup.kinds[resource] == SHORT else PREEMPTABLE)

    def wait_suspended(self, t, resource):
        """Joining the queue raises the holder; only then the job suspends."""
        self.tasks[t].asked = resource
        self.queue[self.group[resource]].append(t)
        self.tasks[t].standing = SUSPENDED
        self.leave(t)

    def complete(self, t, resource):
        self.tasks[t].open.pop()
        if self.same_kind_open(t, resource):
            return                          # inner: closed, no more
        name = self.group[resource]
        self.holder[name] = None
        if self.setup.kinds[resource] == SHORT:
            self.tasks[t].standing = PREEMPTABLE
            self.next_holds(name)
            self.become_preemptable(t)
        else:
            self.give_way(t)
            first = self.next_holds(name)
            if first is not None:
                self.arrive_or_resume(first)

    def next_holds(self, name):
        """The queue's first job, if any, becomes holder of what it asked for."""
        if not self.queue[name]:
            return None
        first = self.queue[name].pop(0)
        self.hold(first, self.tasks[first].asked)
        return first

    # ---- what must hold after each event ----

    def assert_sound(self):
        runnable = sorted((t for t in self.jobs() if self.runnable(t)), key=self.priority)
        linked = [t for t in self.linked if t is not None]
        assert sorted(linked) == sorted(runnable[:self.setup.processors]), 'linked jobs'
        for k, job in enumerate(self.running):
            assert (job is None) == (self.linked[k] is None), 'idle without a link only'
            if job is not None:
                assert self.running.count(job) == 1 and self.runnable(job), 'runs once'
                assert self.linked[k] == job or (
                    job not in self.linked and self.non_preemptable(job)), 'linked there'
        for t, task in enumerate(self.tasks):
            assert sum(task.totals) == task.ticks_pending, 'the six sum to the pending'
            assert not task.non_preemptable() or t in self.running, 'non-preemptable runs'
        for name, queue in self.queue.items():
            assert not queue or self.holder[name] is not None, 'only held groups have queues'
            for t in queue:
                assert self.tasks[t].standing in (SPINS, SUSPENDED), 'queues hold the waiting'

    # ---- lines ----

    def first_line(self):
        return f'processors {self.setup.processors} tasks {self.setup.tasks} start {self.setup.start}'

    def event_line(self, number, answer):
        def shown(job):
            return '-' if job is None else str(job)
        places = [f'{shown(l)}/{shown(r)}' for l, r in zip(self.linked, self.running)]
        return ' '.join([str(number), str(answer)] + places)

    def total_line(self, t):
        return ' '.join(['task', str(t)] + [str(n) for n in self.tasks[t].totals])


# ---- blocks ----

BLOCK, HEAD, CHECK_AT, SETUP_BYTES, RECORD = 512, 4, 508, 232, 6
START_AT, PERIODS_AT, KINDS_AT, PAIRS_AT = 4, 8, 72, 104    # within the payload
MOST_RECORDS = 84


def number_at(data, at, size):
    return int.from_bytes(data[at:at + size], 'little')


def check_of(block):
    """The check of the 508 bytes before it, as its four bytes."""
    first = second = 0
    for at in range(0, CHECK_AT, 2):
        first = (first + number_at(block, at, 2)) % 65_535
        second = (second + first) % 65_535
    return first.to_bytes(2, 'little') + second.to_bytes(2, 'little')


def filler_of(index, payload, count):
    """The bytes of a block's payload that have to be 0."""
    if index > 0:
        reserves = bytes(payload[RECORD * n + 3] for n in range(count))
        return reserves + payload[RECORD * count:]
    tasks = min(payload[1], MOST_TASKS)
    resources = min(payload[2], MOST_RESOURCES)
    pairs = min(payload[3], MOST_PAIRS)
    return (payload[PERIODS_AT + 2 * tasks:KINDS_AT]
            + payload[KINDS_AT + resources:PAIRS_AT]
            + payload[PAIRS_AT + 2 * pairs:])


def verdict(block, index):
    """0, or the first of 30 to 35 that applies to this block at this place."""
    if len(block) != BLOCK:
        return 30
    if block[CHECK_AT:] != check_of(block):
        return 31
    if index > LAST_BLOCK or number_at(block, 0, 2) != index % 65_536:
        return 32
    kind, count = block[2], block[3]
    if kind != (1 if index == 0 else 2):
        return 33
    if not 1 <= count <= (1 if index == 0 else MOST_RECORDS):
        return 34
    if any(filler_of(index, block[HEAD:CHECK_AT], count)):
        return 35
    return 0


def setup_in(block):
    payload = block[HEAD:HEAD + SETUP_BYTES]
    processors, tasks, resources, pairs = payload[:4]
    return SetUp(
        processors, tasks, resources, pairs, number_at(payload, START_AT, 4),
        [number_at(payload, PERIODS_AT + 2 * t, 2) for t in range(min(tasks, MOST_TASKS))],
        list(payload[KINDS_AT:KINDS_AT + min(resources, MOST_RESOURCES)]),
        [tuple(payload[PAIRS_AT + 2 * n:PAIRS_AT + 2 * n + 2])
         for n in range(min(pairs, MOST_PAIRS))])


def events_in(block):
    """The records of an accepted block: kind, task, resource, tick."""
    for n in range(block[3]):
        kind, task, resource, _, low, high = block[HEAD + RECORD * n:HEAD + RECORD * n + RECORD]
        yield kind, task, resource, low + 256 * high


# ---- the stepping program ----

def printed(stream, session_of=Session):
    """The lines that the stepping program prints for this input, one by one."""
    block = stream.read(BLOCK)
    refused = verdict(block, 0)
    if refused:
        yield f'block 0 refused {refused}'
        return
    setup = setup_in(block)
    if setup.refusal():
        yield f'setup refused {setup.refusal()}'
        return
    session = session_of(setup)
    yield session.first_line()
    index = number = 0
    while True:
        index += 1
        block = stream.read(BLOCK)
        if not block:
            break
        refused = verdict(block, index)
        if refused:
            yield f'block {index} refused {refused}'
            return
        for event in events_in(block):
            number += 1
            yield session.event_line(number, session.event(*event))
    for t in range(setup.tasks):
        yield session.total_line(t)


def main():
    for line in printed(sys.stdin.buffer):
        print(line)


if __name__ == '__main__':
    main()
