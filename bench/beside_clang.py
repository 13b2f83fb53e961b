"""What the benchmarks of judging share: how long the program takes for a text, and how long clang takes for the syntax and types of
the same text. Each time is the least of some runs of the whole process, less that of a text of a few bytes."""
import subprocess
import sys
import time

SMALL = "__kernel void k(__global int*a){}"


class Judging:
    def __init__(self, program, folder, runs):
        self.program, self.folder, self.runs = program, folder, runs
        self.base = (0.0, 0.0)
        self.base = self.times("small", SMALL)

    def least(self, wanted, *command):
        """The least time of a command that ends with the wanted status, in seconds."""
        times = []
        for _ in range(self.runs):
            start = time.perf_counter()
            done = subprocess.run(command, stdout=subprocess.PIPE, stderr=subprocess.PIPE, text=True)
            times.append(time.perf_counter() - start)
            if done.returncode != wanted:
                sys.exit("failed: %s\n%s%s" % (" ".join(command), done.stdout[:400], done.stderr[:400]))
        return min(times)

    def times(self, name, text):
        """The program's time and clang's for a text, which is judged whole and then refused by code 900."""
        path = "%s/%s.cl" % (self.folder, name)
        with open(path, "w") as file:
            file.write(text)
        command = [self.program, "compile", path, self.folder + "/out.spv"]
        said = subprocess.run(command, stdout=subprocess.PIPE, text=True).stdout
        if said != "source 900 1:1\n":
            sys.exit("failed: %s isn't judged whole: %s" % (path, said))
        mine = self.least(1, *command)
        other = self.least(0, "clang", "-cl-std=CL1.2", "-fsyntax-only", "-w", "-x", "cl", path)
        return mine - self.base[0], other - self.base[1]
