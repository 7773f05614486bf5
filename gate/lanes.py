"""Runs tasks side by side, the longest chain of them first.

A task that others wait for is given more jobs where its chain would take longer than all work spread over the
processors, and one job where it wouldn't: more jobs end a proof sooner, and cost processor time.
"""

import os
import time
from concurrent.futures import FIRST_COMPLETED, ThreadPoolExecutor, wait

# How much sooner a proof of some size ends by so many jobs.
GAIN = {1: 1.0, 2: 1.6, 3: 1.9, 4: 2.1}
# What a job more takes of the memory that a check with one takes.
MORE_MEMORY = 0.6
# A chain that matters may have more jobs than there are idle processors, as no check keeps all of its jobs busy; and it
# doesn't wait for shorter ones to end.
BESIDE = 2
# A check has taken most of its memory after so many seconds: that is seen in what is free, and it may still take this part
# of what is reckoned, which is more than it takes.
SETTLED, STILL = 60, 0.3
# How often it is seen whether memory is free by now.
PAUSE = 5


class Task:
    """What a task waits for, the seconds that it takes by one job, its memory in bytes, a call that gets what was given
    and how many jobs it may use, how many jobs are of use to it, and the seconds that something else takes after it."""

    def __init__(self, waits, seconds, memory, call, most_jobs=max(GAIN), after=0):
        self.waits, self.seconds, self.memory, self.call, self.most_jobs = waits, seconds, memory, call, most_jobs
        self.chain = seconds + after

    def takes(self, jobs):
        return self.memory * (1 + MORE_MEMORY * (jobs - 1))


class Lanes:
    """Runs tasks, each once those that it waits for have ended. They come after those that they wait for. `free` gives the
    memory that is free then, in bytes."""

    def __init__(self, tasks, processors, free):
        number = os.environ.get("RT_JOBS", "")
        self.fixed = int(number) if number.isdigit() else 0
        self.tasks, self.lanes, self.free = tasks, self.fixed or processors, free
        for key in reversed([*tasks]):
            for it in tasks[key].waits:
                tasks[it].chain = max(tasks[it].chain, tasks[it].seconds + tasks[key].chain)
        self.left = sorted(tasks, key=lambda it: -tasks[it].chain)
        self.running, self.given = {}, {}

    def jobs(self, key, held):
        """By how many jobs a task is run beside what waits for this much memory, or 0 where it has to wait."""
        idle = self.lanes - sum(jobs for _, jobs, _ in self.running.values())
        if self.fixed:
            return 1 if idle > 0 else 0
        task, work = self.tasks[key], sum(self.tasks[it].seconds for it in self.left)
        share = max(work / self.lanes, 1)
        free = idle + BESIDE if task.chain > share else idle
        if free <= 0:
            return 0
        wanted = next((it for it in GAIN if task.chain / GAIN[it] <= share), max(GAIN))
        most = min(wanted, task.most_jobs, free)
        room = self.free() - held - sum(self.may_take(*it) for it in self.running.values())
        fits = [it for it in range(1, most + 1) if task.takes(it) <= room]
        return max(fits) if fits else 0 if self.running else 1

    def may_take(self, key, jobs, began):
        """The memory that a running task may take besides what it has, about."""
        return self.tasks[key].takes(jobs) * (STILL if time.monotonic() - began > SETTLED else 1)

    def start(self, pool):
        ready = [it for it in self.left if all(low in self.given for low in self.tasks[it].waits)]
        # (a long chain that waits for memory gets what is let go, before shorter ones)
        held = 0
        for key in ready:
            jobs = self.jobs(key, held)
            held += 0 if jobs else self.tasks[key].memory
            if jobs:
                self.left.remove(key)
                self.running[pool.submit(self.tasks[key].call, self.given, jobs)] = key, jobs, time.monotonic()

    def run(self):
        """Runs all, and returns what each gave."""
        with ThreadPoolExecutor(self.lanes + BESIDE) as pool:
            while self.left or self.running:
                self.start(pool)
                for it in wait(self.running, PAUSE, FIRST_COMPLETED).done:
                    self.given[self.running.pop(it)[0]] = it.result()
        return self.given
