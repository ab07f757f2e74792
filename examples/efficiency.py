"""Tare and efficiency: each run has a tare of its own, which its functions share."""

from itertools import cycle
from statistics import mean as average

RATIO = 4.0
noise = cycle([0.01, -0.02, 0.01])


def torque_in(load):
    """Stands for the torque meter at the input, which shows 0.8 Nm without load."""
    return 0.8 + load / RATIO / 0.96 + next(noise)


def new_run(ratio, readings=6):
    tare = 0.0
    steps = 0

    def measure(load):
        return average(torque_in(load) for _ in range(readings))

    def zero():
        nonlocal tare
        tare = measure(0)

    def efficiency(load):
        nonlocal steps
        steps += 1
        return load / (ratio * (measure(load) - tare))

    return zero, efficiency, lambda: steps


zero, efficiency, steps_done = new_run(RATIO)
zero()
for load in 50, 100, 200:
    print(f"{load:4} Nm: {efficiency(load):.3f}")
print(steps_done(), "steps")
