"""A helper that takes off the wrong tare.

`loss` once stood inside `run` and was moved out, to be used elsewhere too. Since then its `tare` is that of the module
and not the one that the run measures. Nothing fails: the losses are only too high, by a tare.
"""

RATIO = 4.0
LOADS = [50, 100, 200]
tare = 0.0


def torque_in(load):
    """Stands for the torque meter at the input, which shows 0.8 Nm without load."""
    return 0.8 + load / RATIO * 1.04


def loss(load):
    return torque_in(load) - tare - load / RATIO


def run(loads):
    tare = torque_in(0)
    return [loss(load) for load in loads]


def run_as_meant(loads):
    tare = torque_in(0)

    def loss(load):
        return torque_in(load) - tare - load / RATIO

    return [loss(load) for load in loads]


if __name__ == "__main__":
    for load, wrong, right in zip(LOADS, run(LOADS), run_as_meant(LOADS)):
        print(f"{load:4} Nm: {wrong:.2f} Nm lost, should be {right:.2f} Nm")
