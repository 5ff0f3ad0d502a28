"""The time that a build takes: the work of each crate, and the crates that all others wait for."""

import os
import time

from crates import TOP, programs

# The file with the processor seconds of crates. For a crate that isn't there: the seconds of a line of a
# library, and of a program's own step, which has the libraries' code in it. And the part of a check that
# jobs can't share.
MEASURED = os.path.join(TOP, "build", "seconds")
SECONDS_OF_A_LINE = 0.05
SECONDS_OF_A_PROGRAM = 80
UNSHARED = 0.1
MOST_JOBS = 8
# How much slower than the machine of build/seconds a machine may be, while nothing is measured.
MOST_SLOWNESS = 2
# From this part of the work on, the clock of this build gives the time that is left.
TELLING = 0.2
# A crate holds up a build if the longest way through it is nearly as long as the longest of all.
HOLDING_UP = 0.8


def measured():
    """Returns the seconds of the crates that were measured, by name."""
    with open(MEASURED, encoding="ascii") as file:
        pairs = [it.split() for it in file if it.strip() and not it.startswith("#")]
    return {name: int(seconds) for name, seconds in pairs}


def seconds_of(crates):
    """Returns the processor seconds of each of these crates, by name."""
    known, of_programs = measured(), programs()
    guesses = {
        it.name: SECONDS_OF_A_PROGRAM if it.name in of_programs else SECONDS_OF_A_LINE * it.lines
        for it in crates
    }
    return {name: known.get(name, guess) for name, guess in guesses.items()}


def work_above(found, seconds):
    """Returns, for each crate, the time of all work that follows one after the other, from it up to a
    program."""
    above = {}
    for it in reversed(found):
        users = [above[user.name] for user in found if it in user.below]
        above[it.name] = seconds[it.name] + max(users, default=0)
    return above


def work_below(found, seconds):
    """Returns, for each crate, the time of all work that comes one after the other before it."""
    below = {}
    for it in found:
        ways = [below[low.name] + seconds[low.name] for low in it.below if low.name in below]
        below[it.name] = max(ways, default=0)
    return below


def jobs_on(processors, is_alone=False):
    """Returns the number of jobs that prove a crate: half the processors, since rarely more than three
    crates can be proved side by side, or all for a crate that is alone. It is never large, since each
    job reads everything below."""
    return max(1, min(processors if is_alone else processors // 2, MOST_JOBS))


def most_jobs_on(processors):
    """Returns the number of jobs of all crates together: one and a half times the processors, since a
    crate's jobs wait for each other at its beginning and its end."""
    return max(1, processors * 3 // 2)


class Pace:
    """The work of a build, and its speed."""

    def __init__(self, crates, processors):
        self.processors, self.seconds = processors, seconds_of(crates)
        self.above = work_above(crates, self.seconds)
        below = work_below(crates, self.seconds)
        longest = max(self.above.values(), default=0)
        # The crates that all others wait for in the end. They have priority on the processors.
        self.holding_up = {
            it for it, above in self.above.items() if below[it] + above >= HOLDING_UP * longest
        }
        self.known, self.began, self.work = {*measured()}, time.monotonic(), 0
        # How many other jobs want a processor. Each gets as much of it as a job of this build.
        self.load = os.getloadavg()[0]
        self.used = self.expected = 0

    def begin(self, left):
        """Begins to measure, with these crates left."""
        self.began, self.work = time.monotonic(), self.seconds_on(left)

    def note(self, crate, used):
        """Records the processor seconds that a crate took here, if the crate was measured before."""
        if crate.name in self.known:
            self.used += used
            self.expected += self.seconds[crate.name]

    def seconds_on(self, left):
        """Returns about how long these crates take on idle processors. They are ordered, each after the
        crates below it. It is the time of all of them on all processors, or the longest way up, with
        half the processors for each crate, if that takes longer."""
        jobs = jobs_on(self.processors)
        shared = sum(self.seconds[it.name] for it in left) / self.processors
        longest = max(work_above(left, self.seconds).values(), default=0)
        return max(shared, longest * (UNSHARED + (1 - UNSHARED) / jobs))

    def time_left(self, left):
        """Returns how long these crates take: a range while nothing is measured, then an estimate by the
        processor time of the crates before, and in the end by the clock."""
        seconds = self.seconds_on(left)
        done = self.work - seconds
        if done > TELLING * self.work:
            return minutes(seconds * (time.monotonic() - self.began) / done)
        seconds *= 1 + self.load / self.processors
        if self.expected:
            return minutes(seconds * self.used / self.expected)
        low = in_minutes(seconds)
        return f"{low} to {max(low + 1, in_minutes(MOST_SLOWNESS * seconds))} min"


def in_minutes(seconds):
    return max(1, round(seconds / 60))


def minutes(seconds):
    return f"about {in_minutes(seconds)} min"
