"""A sweep on two hosts, one of which is killed on the way. The hosts are network namespaces."""
import os
import shlex
import shutil
import subprocess
import unittest
from pathlib import Path

from .explore_case import BUILT, ROOT, Case

SECONDS = 600
NAMESPACES = ["unshare", "--net", "--mount", "--pid", "--fork", "--kill-child"]
NEEDED = ("parallel", "sshd", "ssh", "ssh-keygen", "ip", "unshare")
LINK = ["ip", "link", "add", "here", "type", "veth", "peer", "name", "there"]
# Both hosts run this in the place of explore. Two is killed when it has told a part of its outcomes.
THERE = """\
#!/bin/sh
cd {root}
echo "$HOST" >>{folder}/began
[ "$HOST" = two ] || exec {explore} "$@"
{explore} "$@" | head -n 4
touch {folder}/kill-two
exec sleep 1000
"""
PATH = f"{os.environ['PATH']}{os.pathsep}/usr/sbin"


def lacking() -> str:
    """What isn't here of what the test takes, or an empty text."""
    for name in NEEDED:
        if not shutil.which(name, path=PATH):
            return f"{name} isn't installed"
    tried = subprocess.run([*NAMESPACES, *LINK], env={"PATH": PATH}, capture_output=True)
    return "network namespaces can't be made" if tried.returncode else ""


LACKING = lacking()


@unittest.skipIf(LACKING, LACKING)
class Hosts(Case):
    """GNU parallel does the parts of a sweep on two hosts with the same folders."""

    def test_no_outcome_is_lost_and_none_comes_twice(self) -> None:
        sweep = "key 101 from 0 to 90: regs 95\n"
        session = "examples/one-key-sooner.session"
        whole = self.explore(f"sweep {sweep}", session)
        self.explore(f"sweep --jobs jobs {sweep}", session)
        there = self.folder / "there"
        programs = f"--program {BUILT.program} --disassembler {BUILT.disassembler}"
        explore = f"{shlex.quote(str(ROOT / 'explore'))} {programs}"
        there.write_text(THERE.format(root=ROOT, folder=self.folder, explore=explore))
        there.chmod(0o755)
        jobs = (self.folder / "jobs").read_text().replace("./explore", str(there))
        said = self.on_hosts(jobs)
        began = (self.folder / "began").read_text().split()
        self.assertLessEqual({"one", "two"}, set(began))
        self.assertGreater(len(began), len(jobs.splitlines()))
        told = [it for it in said.splitlines() if it[0].isdigit()]
        self.assertEqual([int(it.split()[0]) for it in sorted(told, key=turn_of)], [*range(91)])
        (self.folder / "out").write_text(said)
        gathered = self.explore("sweep --gather out\n").splitlines()
        self.assertEqual(gathered[1:], whole.splitlines())

    def on_hosts(self, jobs: str) -> str:
        ran = subprocess.run(
            [
                *(*NAMESPACES, "bash", str(Path(__file__).with_name("hosts.sh"))),
                *(str(self.folder), "parallel", "--sshlogin", "one,two", "--jobs", "2"),
                *("--ssh", f"ssh -F {self.folder}/hosts", "--workdir", ".", "--retries", "3"),
            ],
            input=jobs,
            cwd=ROOT,
            env={**os.environ, "PATH": PATH, "HOME": str(self.folder)},
            capture_output=True,
            text=True,
            timeout=SECONDS,
        )
        self.assertEqual(ran.returncode, 0, ran.stderr)
        return ran.stdout


def turn_of(line: str) -> int:
    return int(line.split()[0])
