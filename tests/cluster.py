#!/usr/bin/env python3
"""Lists a problem in parts with the files of examples/cluster, by each engine that is installed, and joins the parts.

    tests/cluster.py [--program PATH]

In each trial a part is killed in the middle, one certificate is cut off, one is of another problem, and two workers make one part; the
worlds joined must be those of one run. Installs nothing, and says which engines are missing. Slurm runs as one node on this machine,
which the test starts and stops.
"""

import contextlib
import os
import shutil
import signal
import socket
import subprocess
import time

import harness

CLUSTER = os.path.join(harness.ROOT, "examples/cluster")
PROBLEM = """taxonomy 1 one
(A a b c)

taxonomy 2 other
(B d e f)

articulation one other
[1.A equals 2.B]
"""
# Kills the run of one part in its middle, once, and runs all else as the program does.
WRAPPER = """#!/bin/sh
case "$*" in
  "part "*"/t2 "*) if mkdir "{folder}/killed" 2>/dev/null; then timeout -s KILL 0.01 "{program}" "$@"; exit 137; fi ;;
esac
exec "{program}" "$@"
"""


def run(words, **more):
    return harness.run(words, seconds=600, stderr=subprocess.STDOUT, **more)


def worlds_of(program, problem, switches):
    """The lines of one run, but for its last."""
    done = run([program, "align", f"in={problem}", *switches])
    assert done.code == 0, done.out
    return done.out.decode().splitlines()[:-1]


class Trial:
    """A folder with parts, some of them spoilt, and a program that is killed once."""

    def __init__(self, program, folder, worlds, switches):
        self.folder, self.switches = folder.path, switches
        self.problem, self.parts, self.wrapper = (folder.at(name) for name in ("problem.txt", "parts", "program"))
        folder.hold("problem.txt", PROBLEM)
        folder.hold("program", WRAPPER.format(folder=folder.path, program=program))
        os.chmod(self.wrapper, 0o755)
        self.program, self.worlds = program, worlds
        self.environment = dict(os.environ, EULER_ALIGN=self.wrapper)

    def script(self, name, *words):
        return run([os.path.join(CLUSTER, name), self.problem, self.parts, *words], env=self.environment)

    def scout(self):
        said = self.script("scout", str(self.worlds), *self.switches)
        assert said.code == 0, said.out
        return int(said.out)

    def spoil(self):
        """Leaves a certificate that is cut off and one of another problem, where two parts' certificates should be."""
        for part in (3, 4):
            said = self.script("one_part", str(part), *self.switches)
            assert said.code == 0, said.out
        with open(os.path.join(self.parts, "c3"), "rb") as file:
            whole = file.read()
        with open(os.path.join(self.parts, "c3"), "wb") as file:
            file.write(whole[: len(whole) // 2])
        other = os.path.join(self.folder, "other.txt")
        with open(other, "w", encoding="utf-8") as file:
            file.write(PROBLEM.replace("equals", "includes"))
        os.remove(os.path.join(self.parts, "c4"))
        done = run([self.program, "align", f"in={other}", f"cert={self.parts}/c4", *self.switches])
        assert done.code == 0, done.out

    def work_twice(self):
        """Two workers make one part at once."""
        words = [os.path.join(CLUSTER, "one_part"), self.problem, self.parts, "5", *self.switches]
        both = [subprocess.Popen(words, env=self.environment) for _ in range(2)]
        assert [one.wait() for one in both] == [0, 0]
        done = run([self.program, "check", f"in={self.problem}", f"cert={self.parts}/c5", *self.switches])
        assert done.code == 0, done.out

    def joined(self):
        with open(os.path.join(self.parts, "worlds"), encoding="utf-8") as file:
            lines = file.read().splitlines()
        assert lines[-1] == f"joined {len(lines) - 1}", lines[-1]
        return lines[:-1]


def by_hand(trial):
    """No engine: one part after another."""
    for part in range(1, trial.count + 1):
        trial.script("one_part", str(part), *trial.switches)
    said = trial.script("join_parts", *trial.switches)
    assert said.code == 0, said.out


def by_parallel(trial):
    said = trial.script("with_parallel", *trial.switches)
    assert said.code == 0, said.out


def by_snakemake(trial):
    config = [f"problem={trial.problem}", f"folder={trial.parts}", f"worlds={trial.worlds}", f"switches={' '.join(trial.switches)}"]
    words = ["snakemake", "-s", os.path.join(CLUSTER, "Snakefile"), "--cores", "4", "--directory", trial.folder, "--config", *config]
    said = run(words, env=trial.environment)
    assert said.code == 0, said.out


SLURM = """ClusterName=trial
SlurmctldHost={host}(127.0.0.1)
SlurmUser=root
SlurmdUser=root
AuthType=auth/none
CredType=cred/none
SlurmctldPort={port}
SlurmdPort={node_port}
StateSaveLocation={folder}/state
SlurmdSpoolDir={folder}/spool
SlurmctldPidFile={folder}/controller.pid
SlurmdPidFile={folder}/node.pid
SlurmctldLogFile={folder}/controller.log
SlurmdLogFile={folder}/node.log
ProctrackType=proctrack/linuxproc
TaskPlugin=task/none
SelectType=select/linear
MpiDefault=none
ReturnToService=2
NodeName={host} NodeAddr=127.0.0.1 CPUs={cpus} State=UNKNOWN
PartitionName=all Nodes={host} Default=YES MaxTime=INFINITE State=UP OverSubscribe=FORCE:4
"""


def free_port():
    with socket.socket() as one:
        one.bind(("127.0.0.1", 0))
        return one.getsockname()[1]


@contextlib.contextmanager
def slurm(folder):
    """One node of Slurm on this machine, while the block runs."""
    host = socket.gethostname().split(".")[0]
    for name in ("state", "spool"):
        os.makedirs(os.path.join(folder, name))
    conf = os.path.join(folder, "slurm.conf")
    with open(conf, "w", encoding="utf-8") as file:
        file.write(SLURM.format(host=host, port=free_port(), node_port=free_port(), folder=folder, cpus=os.cpu_count()))
    quiet = {"stdout": subprocess.DEVNULL, "stderr": subprocess.DEVNULL}
    daemons = [
        subprocess.Popen(["slurmctld", "-D", "-f", conf], **quiet),
        subprocess.Popen(["slurmd", "-D", "-f", conf, "-N", host], **quiet),
    ]
    try:
        yield dict(os.environ, SLURM_CONF=conf)
    finally:
        for daemon in reversed(daemons):
            daemon.send_signal(signal.SIGTERM)
            daemon.wait()


def by_slurm(trial):
    with slurm(os.path.join(trial.folder, "slurm")) as environment:
        trial.environment.update(SLURM_CONF=environment["SLURM_CONF"])
        for _ in range(600):
            if "idle" in run(["sinfo", "-h", "-o", "%T"], env=trial.environment).out.decode():
                break
            time.sleep(0.1)
        said = trial.script("with_slurm", *trial.switches)
        assert said.code == 0, said.out
        for _ in range(3000):
            if not run(["squeue", "-h"], env=trial.environment).out.strip():
                break
            time.sleep(0.1)
        with open(os.path.join(trial.parts, "join.log"), encoding="utf-8") as file:
            assert "joined" in file.read()


# Each engine: what has to be installed, how it works, and whether it scouts for itself.
ENGINES = {
    "by hand": ([], by_hand, False),
    "GNU parallel": (["parallel"], by_parallel, False),
    "Slurm": (["sbatch", "slurmctld", "slurmd"], by_slurm, False),
    "Snakemake": (["snakemake"], by_snakemake, True),
}


def try_engine(program, work, scouts, worlds, switches):
    with harness.Folder() as folder:
        trial = Trial(program, folder, worlds, switches)
        if scouts:
            # Snakemake makes each file itself that it finds unknown, so nothing is spoilt beforehand but the run of a part.
            trial.count = 0
        else:
            trial.count = trial.scout()
            assert trial.count > 5, trial.count
            trial.spoil()
            trial.work_twice()
        work(trial)
        assert os.path.isdir(folder.at("killed")), "no part was killed"
        assert trial.joined() == worlds_of(program, trial.problem, switches)
        return sum(1 for name in os.listdir(trial.parts) if name.startswith("t") and name[1:].isdigit())


def main():
    given = harness.arguments(__doc__, "program")
    ran, missing = [], []
    for name, (needs, work, scouts) in ENGINES.items():
        lacking = [need for need in needs if not shutil.which(need)]
        if lacking:
            missing.append(name)
            continue
        begun = time.time()
        parts = try_engine(given.program, work, scouts, 500, ["coverage=off"])
        print(f"{name}: {parts} parts, {time.time() - begun:.1f} s")
        ran.append(name)
    print(f"cluster: {', '.join(ran)}; not installed: {', '.join(missing) or 'none'}")


if __name__ == "__main__":
    main()
