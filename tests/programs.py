"""What test programs share: cases counted, and programs that are built run through tools/x86run and compared with what each has
to write."""
import os
import subprocess
import threading
from concurrent.futures import ThreadPoolExecutor

TOP = os.path.dirname(os.path.dirname(os.path.abspath(__file__)))


def built(name):
    """Where a program stands that `rt run` or `rt ci` has built, from the top."""
    return os.path.join("crates", name, "out", name)


def kit():
    """The environment with the kit's folder in it, so that rt is asked once and not at each run."""
    env = dict(os.environ)
    if "RATTLE_HOME" not in env:
        guide = subprocess.run(["rt", "doc"], stdout=subprocess.PIPE, text=True, check=True).stdout.strip()
        env["RATTLE_HOME"] = os.path.dirname(guide)
    return env


class Cases:
    """Counts the cases that hold, and tells of those that do not."""

    def __init__(self):
        self.passed = self.failed = 0
        self.lock = threading.Lock()

    def expect(self, name, ok, found=""):
        with self.lock:
            if ok:
                self.passed += 1
            else:
                self.failed += 1
                print(f"FAILED: {name}" + (f": {found}" if found else ""), flush=True)
        return ok

    def tally(self):
        """Prints the counts, and gives the status to exit with."""
        print(f"{self.passed} passed, {self.failed} failed")
        return 1 if self.failed else 0


def told(name, stdin, stdout, env):
    """What a program writes to standard output, where that is a pipe, and to standard error, with these for its own."""
    ran = subprocess.run([os.path.join(TOP, "tools", "x86run"), os.path.join(TOP, built(name))], stdin=stdin,
                         stdout=stdout, env=env, stderr=subprocess.PIPE, timeout=60)
    return (ran.stdout or b"").decode(errors="replace"), ran.stderr.decode(errors="replace")


class Program:
    """A built program; `judge` names what it is held to."""

    def __init__(self, name, judge):
        self.name, self.judge = name, judge
        self.path = os.path.join(TOP, built(name))
        self.env = None

    def says(self, data):
        """What the program writes for this input, or how it failed."""
        try:
            ran = subprocess.run([os.path.join(TOP, "tools", "x86run"), self.path], input=data, env=self.env,
                                 stdout=subprocess.PIPE, stderr=subprocess.PIPE, timeout=60)
        except (OSError, subprocess.TimeoutExpired) as error:
            return str(error)
        if ran.returncode != 0 or ran.stderr:
            return f"status {ran.returncode}: {ran.stderr.decode(errors='replace').strip()}"
        return ran.stdout.decode(errors="replace")

    def difference(self, want, got):
        """The first line that differs, of both; None where there is none."""
        want, got = want.split("\n"), got.split("\n")
        for n in range(max(len(want), len(got))):
            a, b = (lines[n] if n < len(lines) else "nothing more" for lines in (want, got))
            if a != b:
                return f"line {n + 1}: {self.name} says {b!r}, {self.judge} {a!r}"
        return None

    def compare(self, cases, others=()):
        """Runs the cases (name, input, expected output) up to the first difference, then the others (name, a function of
        the environment that says what is wrong), and prints the counts last. Gives the status to exit with."""
        if not os.path.exists(self.path):
            print(f"there is no {built(self.name)}; `rt run` in crates/{self.name} makes it\n0 passed, 1 failed")
            return 1
        self.env = kit()
        passed = 0
        with ThreadPoolExecutor(2) as pool:
            def run(case):
                name, data, want = case
                return name, self.difference(want, self.says(data))

            for name, differs in pool.map(run, cases):
                if differs:
                    pool.shutdown(wait=False, cancel_futures=True)
                    print(f"{name}: {differs}\n{passed} passed, 1 failed")
                    return 1
                passed += 1
        for name, wrong in others:
            differs = wrong(self.env)
            if differs:
                print(f"{name}: {differs}\n{passed} passed, 1 failed")
                return 1
            passed += 1
        print(f"{passed} passed, 0 failed")
        return 0
