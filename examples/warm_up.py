"""Warm-up, then load steps: the oil temperature at the end of each step."""

WARM = 60.0  # degrees
STEPS = [(50, 60), (100, 60), (200, 120)]  # load in Nm, length in seconds


def oil_temperature(seconds, load=0):
    """Stands for the sensor in the oil sump."""
    return 20.0 + 0.05 * seconds + 0.02 * load


def warm_up(limit=WARM):
    """Runs without load until the oil is warm; how long that took, in seconds."""
    seconds = 0
    while oil_temperature(seconds) < limit:
        seconds += 10
        if seconds > 3600:
            raise RuntimeError("the oil does not get warm")
    return seconds


def run(steps):
    clock = warm_up()
    report = []
    for load, seconds in steps:
        clock += seconds
        report.append((load, clock, oil_temperature(clock, load=load)))
    return report


if __name__ == "__main__":
    for load, clock, degrees in run(STEPS):
        print(f"{load:4} Nm after {clock:5} s: {degrees:.1f} degrees")
