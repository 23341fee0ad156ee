#!/usr/bin/env python3
"""A simulated hopper with two valves and a gate, which writes the controller's log: it waits for each scan's answer before it sends the next row."""
import subprocess
import sys

TICK = 50  # ms from sample to sample
COARSE, FINE, GATE = 40, 4, 400  # g a tick
FLIGHT = 4  # ticks from a valve to the hopper


class Controller:
    def __init__(self, program):
        files = ["--plate", "plate.toml", "--program", "program.il", "--log", "/dev/stdin"]
        self.run = subprocess.Popen([program, "run", *files], stdin=subprocess.PIPE, stdout=subprocess.PIPE, text=True)
        self.send("ms,kind,data")

    def send(self, row):
        self.run.stdin.write(row + "\n")
        self.run.stdin.flush()

    def scan(self, ms):
        """The output bits and words of a scan at this time."""
        self.send(f"{ms},S,")
        _, _, _, bits, *words = self.run.stdout.readline().split()
        return int(bits, 16), [int(word) for word in words]


def main(program):
    controller, ms, mass, falling, printed = Controller(program), 0, 0, [0] * FLIGHT, 0
    controller.send("0,I,0001")
    while printed < 10:
        controller.send(f"{ms},C,{10000 + 40 * mass}")
        bits, words = controller.scan(ms)
        if words[0] > printed:
            printed = words[0]
            print(f"{ms / 1000:7.2f} s: batch {printed}, {words[1]} g")
        falling.append(COARSE * (bits & 1) + FINE * (bits >> 1 & 1))
        mass = max(mass + falling.pop(0) - GATE * (bits >> 2 & 1), 0)
        ms += TICK
    controller.run.stdin.close()
    return controller.run.wait()


if __name__ == "__main__":
    sys.exit(main(sys.argv[1]))
