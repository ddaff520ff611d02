"""Which crate comes next, and how long all takes, by the crates' weights."""
import os

# What a run of the toolchain may take, in bytes: where there is less memory, fewer go on at once.
MEMORY_OF_A_RUN = 3_000_000_000
# How much each run gives way to the first look.
NICE = 5
# What each job more brings the crate that has it, as a part of the first.
GAIN = 0.35


def cores_at_hand():
    return len(os.sched_getaffinity(0))


def most_at_once(cores):
    """How many runs may go on at once: one for each core, and fewer if the memory that is free is too small."""
    with open("/proc/meminfo", encoding="ascii") as file:
        rows = dict(line.split(":") for line in file)
    free = int(rows["MemAvailable"].split()[0]) * 1024
    return max(1, min(cores, free // MEMORY_OF_A_RUN))


def leader(waiting):
    """The crate that the longest way leads through."""
    return max(waiting, key=lambda crate: crate.way)


def is_ready(crate, waiting):
    return not any(below in waiting for below in crate.below)


def speed(jobs):
    """How many times as fast a crate is proved with so many jobs."""
    return 1 + GAIN * (jobs - 1)


def jobs(crate, waiting, beside, cores):
    """How many jobs a crate's run gets beside so many others. The crate that the longest way leads through gets one more
    than the cores that are left. All others get one, since each job reads the libraries again; so does the program's own
    crate, which gains nothing by more."""
    if len(waiting) == 1 or crate is not leader(waiting):
        return 1
    return max(1, min(cores, cores - beside + 1))


def ready_of(waiting, running, most):
    """The crates that may start now: the longest ways first, as many as `most` allows. The program's own crate, the last one,
    starts when all others are proved."""
    ready = [it for it in waiting if it not in running and is_ready(it, waiting)]
    return sorted(ready, key=lambda it: -it.way)[: max(0, most - len(running))]


def starting_plainly(waiting, running, cores, most):
    """The crates that start now, each with its jobs, by a rule that looks at nothing but the ways."""
    ready = ready_of(waiting, running, most)
    return {it: jobs(it, waiting, len(running) + len(ready) - 1, cores) for it in ready}


def starting(left, running, cores, most):
    """The crates that start now, each with its jobs. Of each crate that isn't proved yet there are so many seconds `left`;
    `running`: the jobs of each that has begun. Each gets one job, or one of them gets more, if all is done sooner then, as
    far as `steps` tells: the longest way may lead through a crate that has begun, and cores are idle beside it."""
    ready = ready_of(list(left), running, most)
    plain = dict.fromkeys(ready, 1)
    given = [plain]
    if len(left) > 1:
        given += [{**plain, it: many} for it in ready for many in range(2, cores + 1)]
    return min(given, key=lambda it: (seconds_of(left, {**running, **it}, cores), sum(it.values())))


def steps(left, running, cores):
    """Goes through the rest of a build, of which each crate has so many seconds `left` and those that are `running` have so
    many jobs: the seconds until the next crate is proved, the seconds that each other one has left then, and who had how
    many jobs."""
    running = dict(running)
    while left:
        running.update(starting_plainly(list(left), running, cores, cores))
        share = min(1, cores / sum(running.values()))
        speeds = {crate: speed(many) * share for crate, many in running.items()}
        step = min(left[crate] / each for crate, each in speeds.items())
        left = {crate: seconds - step * speeds.get(crate, 0) for crate, seconds in left.items()}
        left = {crate: seconds for crate, seconds in left.items() if seconds > 1e-6}
        yield step, left, dict(running)
        running = {crate: many for crate, many in running.items() if crate in left}


def left_of(waiting, spent):
    """The seconds that each crate has left, where it takes those of its weight less what it has had."""
    return {crate: max(crate.weight - spent.get(crate, 0), crate.weight / 20) for crate in waiting}


def seconds_of(left, running, cores):
    """How long the rest of a build takes, of which each crate has so many seconds left."""
    return sum(step for step, _, _ in steps(left, running, cores))


def seconds_left(waiting, spent, running, cores):
    """How long the rest takes, where each crate takes the seconds of its weight less what it has had."""
    return seconds_of(left_of(waiting, spent), running, cores)


def add_up(crates, took):
    """Adds up the longest way from each crate to the program, where each takes so long."""
    for crate in crates:
        crate.way = took[crate]
    for crate in reversed(crates):
        for used in crate.uses:
            used.way = max(used.way, crate.way + took[used])


def find_ways(crates, cores):
    """Finds the longest way from each crate to the program, by what each takes with the jobs that it gets: first with one,
    then with those that the ways so found give it."""
    add_up(crates, {crate: crate.weight for crate in crates})
    had = {}
    for _, _, running in steps({crate: crate.weight for crate in crates}, {}, cores):
        had.update(running)
    add_up(crates, {crate: crate.weight / speed(had[crate]) for crate in crates})
