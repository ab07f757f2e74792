"""A bench as a class, and one that takes off its tare."""


class Bench:
    ratio: float = 4.0

    def __init__(self, drag: float, *, loss: float = 0.02):
        self.drag, self.loss = drag, loss

    def __enter__(self):
        return self

    def __exit__(self, *error):
        self.drag = None

    def torque_in(self, load: float) -> float:
        """Stands for the torque meter at the input."""
        return self.drag + load / self.ratio * (1 + self.loss)


class TaredBench(Bench):
    tare = 0.0

    def zero(self):
        self.tare = super().torque_in(0)

    def torque_in(self, load):
        return super().torque_in(load) - self.tare

    def efficiencies(self, loads):
        """The efficiency at each load, but for the loads at which there is no torque."""
        return {load: load / (self.ratio * torque) for load in loads if (torque := self.torque_in(load)) > 0}


with TaredBench(0.8, loss=0.04) as bench:
    for title in "raw", "tared":
        print(title, *(f"{load} Nm: {eta:.3f}" for load, eta in bench.efficiencies([0, 50, 100]).items()))
        bench.zero()
