#!/usr/bin/env python3
"""Searches all schedules of a model of the desk's bells for one in which everybody sleeps while work is left.

    checks/bell.py [--seats 2] [--jobs 2] [--form kept|once|flag-first]

A bell (crates/intake/src/bell.rt) is a count of its rings and a flag that says whether somebody may sleep; no contract speaks of waking. The model
has its atomic steps, one at a time in every order: each seat submits its jobs one after the other, rings the clerk's bell and waits for its answer at
its own; the clerk takes jobs, answers and rings the seat's bell, and sleeps while there is nothing to do; the last seat closes the desk. A thread that
sleeps is woken by nothing but a ring. The forms of a ring:

    kept          counts, takes the flag down if it is up, counts once more, and wakes: the one in use
    once          the same without the second count: a late ringer may take down the flag of a sleep that has not begun
    flag-first    takes the flag down before it counts

It is a model in Python, and not the code: it shows that the form is right, if the code has it. It prints the number of states, and a shortest schedule
that ends with everybody asleep, if there is one; the exit status is 1 then.
"""

import collections
import sys
from collections.abc import Iterator
from typing import Any, NamedTuple

from crates import asked_of

# Where a ring goes on after each of its steps, by form.
RINGS: dict[str, tuple[str, ...]] = {
    "kept": ("count", "look", "take", "count again", "wake"),
    "once": ("count", "look", "take", "wake"),
    "flag-first": ("take first", "count", "wake if taken"),
}
CLERK = 0


class Bell(NamedTuple):
    """The count of a bell's rings, and its flag."""

    rings: int
    awaited: int


class Thread(NamedTuple):
    """What a thread does: its place in its loop, the step of a ring or None, the count that it has read, its jobs that are left, and the
    bell that it rings."""

    at: str
    step: int | None
    read: int
    left: int
    rung: int


class State(NamedTuple):
    """The seats of the jobs that wait, whether the desk is closed, and the bells, the answers and the threads, the clerk's first."""

    queue: tuple[int, ...]
    closed: bool
    bells: tuple[Bell, ...]
    replies: tuple[bool, ...]
    threads: tuple[Thread, ...]


# Of each state how it was reached: the state before and the step; None for the first one.
Came = dict[State, tuple[State, str] | None]


def begun(seats: int, jobs: int) -> State:
    """Returns the first state: nobody has done anything."""
    threads = (Thread("read", None, 0, 0, 0), *(Thread("push", None, 0, jobs, 0) for _ in range(seats)))
    return State((), False, (Bell(0, 0),) * (seats + 1), (False,) * (seats + 1), threads)


def put(values: tuple[Any, ...], at: int, value: Any) -> tuple[Any, ...]:
    """Returns the values with another one at a place."""
    return values[:at] + (value,) + values[at + 1 :]


def woken(state: State, bell: int) -> tuple[Thread, ...]:
    """Returns the threads after those that sleep at the bell were woken."""
    return tuple(it._replace(at="read") if it.at == "asleep" and at == bell else it for at, it in enumerate(state.threads))


def rung(state: State, at: int, form: str) -> State:
    """Returns the state after one step of the ring that a thread makes."""
    thread = state.threads[at]
    at_step = thread.step or 0
    steps, bell = RINGS[form], state.bells[thread.rung]
    step = steps[at_step]
    ends = step.startswith("wake")
    if step.startswith("count"):
        bell = bell._replace(rings=bell.rings + 1)
    elif step == "look":
        ends = bell.awaited == 0
    elif step == "take":
        ends, bell = bell.awaited == 0, bell._replace(awaited=0)
    elif step == "take first":
        thread, bell = thread._replace(read=bell.awaited), bell._replace(awaited=0)
    wakes = step == "wake" or step == "wake if taken" and thread.read
    state = state._replace(bells=put(state.bells, thread.rung, bell))
    if wakes:
        state = state._replace(threads=woken(state, thread.rung))
    return state._replace(threads=put(state.threads, at, thread._replace(step=None if ends else at_step + 1)))


def seat_step(state: State, at: int) -> State | None:
    """Returns the state after a seat's step between two rings."""
    thread, bell = state.threads[at], state.bells[at]
    if thread.at == "push":
        state = state._replace(queue=state.queue + (at,))
        thread = thread._replace(at="read", step=0, rung=CLERK)
    elif thread.at == "read":
        thread = thread._replace(at="look", read=bell.rings)
    elif thread.at == "look" and state.replies[at]:
        state, left = state._replace(replies=put(state.replies, at, False)), thread.left - 1
        thread = thread._replace(at="push" if left else "leave", left=left)
    elif thread.at == "look":
        thread = thread._replace(at="announce")
    elif thread.at == "announce":
        state, thread = state._replace(bells=put(state.bells, at, bell._replace(awaited=1))), thread._replace(at="park")
    elif thread.at == "park":
        thread = thread._replace(at="asleep" if bell.rings == thread.read else "read")
    elif thread.at == "leave":
        is_last = all(it.at == "ended" for number, it in enumerate(state.threads) if number not in (CLERK, at))
        state = state._replace(closed=state.closed or is_last)
        thread = thread._replace(at="ended", step=0 if is_last else None, rung=CLERK)
    else:
        return None
    return state._replace(threads=put(state.threads, at, thread))


def clerk_step(state: State) -> State | None:
    """Returns the state after the clerk's step between two rings."""
    thread, bell = state.threads[CLERK], state.bells[CLERK]
    if thread.at == "read":
        thread = thread._replace(at="look", read=bell.rings)
    elif thread.at == "look" and state.queue:
        seat = state.queue[0]
        state = state._replace(queue=state.queue[1:], replies=put(state.replies, seat, True))
        thread = thread._replace(at="read", step=0, rung=seat)
    elif thread.at == "look":
        thread = thread._replace(at="ended" if state.closed else "announce")
    elif thread.at == "announce":
        state, thread = state._replace(bells=put(state.bells, CLERK, bell._replace(awaited=1))), thread._replace(at="park")
    elif thread.at == "park":
        thread = thread._replace(at="asleep" if bell.rings == thread.read else "read")
    else:
        return None
    return state._replace(threads=put(state.threads, CLERK, thread))


def small(state: State) -> State:
    """Returns the state with counts of rings from the least that somebody may still compare, so that equal states are seen to be equal."""
    def least(at: int) -> int:
        thread = state.threads[at]
        return min(thread.read, state.bells[at].rings) if thread.at in ("look", "announce", "park", "asleep") else state.bells[at].rings

    floors = [least(at) for at in range(len(state.threads))]
    bells = tuple(bell._replace(rings=bell.rings - floor) for bell, floor in zip(state.bells, floors))
    threads = tuple(it._replace(read=it.read - floor) if it.at in ("look", "announce", "park", "asleep") else it for it, floor in zip(state.threads, floors))
    return state._replace(bells=bells, threads=threads)


def next_states(state: State, form: str) -> Iterator[tuple[str, State]]:
    """Yields each thread's name with the state after its next step."""
    for at, thread in enumerate(state.threads):
        name = "clerk" if at == CLERK else f"seat {at}"
        if thread.step is not None:
            yield f"{name}: {RINGS[form][thread.step]}", rung(state, at, form)
        elif (after := clerk_step(state) if at == CLERK else seat_step(state, at)) is not None:
            yield f"{name}: {thread.at}", after


def search(seats: int, jobs: int, form: str) -> tuple[int, list[str] | None]:
    """Returns the number of states, and a shortest schedule that ends with somebody asleep for ever, or None."""
    first = small(begun(seats, jobs))
    came: Came = {first: None}
    todo = collections.deque([first])
    while todo:
        state = todo.popleft()
        found = list(next_states(state, form))
        if not found and any(it.at != "ended" for it in state.threads):
            return len(came), schedule(came, state)
        for said, after in found:
            if (after := small(after)) not in came:
                came[after] = state, said
                todo.append(after)
    return len(came), None


def schedule(came: Came, state: State) -> list[str]:
    """Returns the steps that lead to a state."""
    steps = []
    while before := came[state]:
        state, said = before
        steps.append(said)
    return steps[::-1]


def main() -> int:
    """Searches the schedules of a form, and prints what it found."""
    words = asked_of(__doc__, None)
    words.add_argument("--seats", type=int, default=2, metavar="N", help="the number of seats")
    words.add_argument("--jobs", type=int, default=2, metavar="N", help="the number of jobs of each")
    words.add_argument("--form", choices=RINGS, default="kept", help="the form of a ring")
    asked = words.parse_args()
    count, found = search(asked.seats, asked.jobs, asked.form)
    print(f"{asked.seats} seats, {asked.jobs} jobs of each, form {asked.form}: {count} states")
    for step in found or ():
        print(f"  {step}")
    print("0 passed, 1 failed" if found else "1 passed, 0 failed")
    return 1 if found else 0


if __name__ == "__main__":
    sys.exit(main())
