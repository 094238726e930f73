"""Which crate is proved next, and with how many jobs: pure functions, over names."""

from typing import Dict, Iterable, List, Mapping, Sequence, Tuple

Uses = Mapping[str, Sequence[str]]

# How much faster a crate is with so many jobs. Measured: 1.5, 1.75 and 1.9 times for a small one, 1.9 for a large one with two. A
# further job costs more than it brings.
FASTER = (0, 1.0, 1.6, 2.0, 2.2)
MOST_JOBS = len(FASTER) - 1


def read_uses(text: str) -> Dict[str, List[str]]:
    """Returns what each crate of a crates.txt uses, of this repository and of the kit, in the file's order."""
    uses = {}
    for line in text.split("\n"):
        name, colon, used = line.partition("#")[0].partition(":")
        if colon:
            uses[name.split()[0]] = used.split()
    return uses


def closure(uses: Uses, names: Iterable[str]) -> List[str]:
    """Returns the crates and all of this repository below them, each after those that it uses."""
    found: Dict[str, None] = {}
    for name in names:
        if name not in found:
            found.update(dict.fromkeys([*closure(uses, [it for it in uses[name] if it in uses]), name]))
    return list(found)


def chains(uses: Uses, work: Mapping[str, float]) -> Dict[str, float]:
    """Returns for each crate the work of the longest chain that begins with it and goes up."""
    longest = dict.fromkeys(work, 0.0)
    for name in reversed(closure(uses, work)):
        longest[name] += work[name]
        for used in uses[name]:
            if used in longest:
                longest[used] = max(longest[used], longest[name])
    return longest


def memory_of(need: float, jobs: int) -> float:
    """Returns the memory to plan for so many jobs, if one takes `need`."""
    return need * (1 + 0.6 * (jobs - 1))


def fitting(need: float, jobs: int, room: float) -> int:
    """Returns how many of these jobs the memory holds, from 0 on."""
    return max((it for it in range(1, jobs + 1) if memory_of(need, it) <= room), default=0)


def jobs_in_time(chain: float, rest: float) -> int:
    """Returns the fewest jobs with which a chain of crates takes no longer than the rest; the most if none are enough."""
    return min((it for it in range(1, MOST_JOBS + 1) if chain / FASTER[it] <= rest), default=MOST_JOBS)


def share(
    ready: Sequence[str],
    running: Mapping[str, int],
    work: Mapping[str, float],
    chain: Mapping[str, float],
    left: float,
    needs: Mapping[str, float],
    room: float,
    processors: int,
    most: int = MOST_JOBS,
) -> List[Tuple[str, int]]:
    """Returns the crates to begin now, the longest chain first, and the jobs of each.

    `ready` wait for no other crate, `running` has the jobs of those at work, `left` is the work of all that isn't proved. At most
    as many crates run as there are processors, with one job each. The crate with the longest chain has as many jobs as let it end
    no later than all that is left, shared out among the processors; and what is idle goes to those that begin. All keep within the
    memory `room`; if nothing runs, the first begins in any case.
    """
    running, begun = dict(running), []
    # Of a crate that is at work only what stands above it counts: it may be almost done.
    longest = max([chain[it] for it in ready] + [chain[it] - work[it] for it in running], default=0)
    order = sorted(ready, key=lambda it: (-chain[it], it))
    for at, name in enumerate(order):
        if len(running) >= processors:
            break
        is_head = chain[name] >= longest
        idle = processors - sum(running.values()) - (len(order) - at - 1)
        wanted = max(idle, jobs_in_time(chain[name], left / processors) if is_head else 1)
        jobs = fitting(needs[name], min(wanted, processors, most, MOST_JOBS), room)
        if not jobs and running:
            if is_head:
                # Smaller ones would take its memory again and again.
                break
            continue
        running[name] = max(1, jobs)
        begun.append((name, running[name]))
        room -= memory_of(needs[name], running[name])
    return begun
