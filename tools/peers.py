"""What scripts share that try `rddr run` between real clients and real servers: a proxy that runs, and what was seen."""

import os
import shutil
import signal
import subprocess
import sys
import time

from recording import COPIES, HOST, ROOT, free_port

SERVED = """#!/bin/sh
program='{binary}'
. '{root}/tools/serving.sh'
[ "${{1-}}" != run ] || serve "$@"
exec "$program" "$@"
"""


def command_of(binary, folder):
    """A command that starts this program as `rddr` and the package do, in a folder."""
    command = os.path.join(folder, "rddr")
    with open(command, "w", encoding="ascii") as file:
        file.write(SERVED.format(binary=os.path.abspath(binary), root=ROOT))
    os.chmod(command, 0o755)
    return command


def is_served(port):
    """Whether someone listens there, without a connection of our own, which would be a session with a note."""
    with open("/proc/net/tcp", encoding="ascii") as file:
        sockets = [line.split() for line in file.read().splitlines()[1:]]
    return any(local.endswith(f":{port:04X}") and state == "0A" for _, local, _, state, *_ in sockets)


def wait_until_served(port):
    """Waits until someone listens there, and says whether it came to that in three minutes."""
    for _ in range(1_800):
        if is_served(port):
            return True
        time.sleep(0.1)
    return False


class Proxy:
    """A running `rddr run`, before these instances or behind these callers."""

    def __init__(self, program, folder, dialect, instances, backend=None, records=None, **limits):
        self.port = free_port()
        self.operator = free_port() if records else None
        self.callers = [free_port() for _ in range(COPIES)] if backend else []
        lines = ["version = 2", f"copies = {COPIES}", f'incoming = "{dialect}"', f'outgoing = "{dialect}"']
        lines += [f"{key} = {value}" for key, value in limits.items()]
        lines += ["[ports]", f'listen = "{HOST}:{self.port}"', f"instances = {addresses(instances)}"]
        if backend:
            lines += [f"callers = {addresses(self.callers)}", f'backend = "{HOST}:{backend}"']
        if records:
            lines += [f'operator = "{HOST}:{self.operator}"', f'records = "{records}"']
        self.settings = os.path.join(folder, f"{self.port}.toml")
        with open(self.settings, "w", encoding="ascii") as file:
            file.write("\n".join(lines) + "\n")
        self.process = subprocess.Popen([program, "run", self.settings], stdin=subprocess.PIPE)
        if not wait_until_served(self.port):
            sys.exit("rddr did not serve")
        self.idle = None if records else self.settled()

    def served(self):
        """The process that serves, and not the shell that started it."""
        shell = os.readlink(f"/proc/{self.process.pid}/exe")
        with open(f"/proc/{self.process.pid}/task/{self.process.pid}/children", encoding="ascii") as file:
            children = file.read().split()
        return next((int(one) for one in children if os.readlink(f"/proc/{one}/exe") != shell), self.process.pid)

    def counts(self):
        """How many threads and descriptors it has."""
        pid = self.served()
        return len(os.listdir(f"/proc/{pid}/task")), len(os.listdir(f"/proc/{pid}/fd"))

    def settled(self, due=None):
        """These counts, once they are those that are due, or stay the same."""
        seen = self.counts()
        for _ in range(80):
            time.sleep(0.5)
            before, seen = seen, self.counts()
            if seen == due or (due is None and seen == before):
                break
        return seen

    def processor_seconds(self):
        with open(f"/proc/{self.served()}/stat", encoding="ascii") as file:
            fields = file.read().rsplit(")", 1)[1].split()
        return (int(fields[11]) + int(fields[12])) / os.sysconf("SC_CLK_TCK")

    def stop(self, results):
        """Stops it as an operator does."""
        began = time.monotonic()
        self.process.send_signal(signal.SIGTERM)
        status = self.process.wait(30)
        seconds = time.monotonic() - began
        results.say("a stop", status == 0 and results.is_within(seconds, 5), f"status {status} after {seconds:.1f} s")


def addresses(ports):
    return "[" + ", ".join(f'"{HOST}:{port}"' for port in ports) + "]"


class Results:
    """What was seen, a line each: `right` counts what went as it should, and `wrong` what went otherwise. Where they are
    untimed, what took too long is shown and not counted as wrong."""

    def __init__(self, untimed=False):
        self.right = 0
        self.wrong = 0
        self.untimed = untimed

    def is_within(self, measured, most):
        return self.untimed or measured < most

    def say(self, name, holds, text=""):
        self.right += bool(holds)
        self.wrong += not holds
        print(f"{'ok   ' if holds else 'WRONG'} {name}{': ' if text else ''}{text}", flush=True)

    def same(self, name, through, without):
        shown = "" if through == without else f"{through[-300:]!r} for {without[-300:]!r}"
        self.say(name, through == without, shown)


def run(words, **more):
    """A command's output and status."""
    done = subprocess.run(words, stdout=subprocess.PIPE, stderr=subprocess.STDOUT, timeout=90, check=False, **more)
    return done.stdout + b"\nstatus %d" % done.returncode


def is_here(*programs):
    missing = [name for name in programs if not shutil.which(name)]
    if missing:
        print(f"left out: {', '.join(missing)} not installed", flush=True)
    return not missing
