"""Sweeps over several machines, by GNU parallel: over a stand-in for ssh, and over a real ssh to this machine where a server can be started."""
from __future__ import annotations

import os
import shutil
import socket
import subprocess
import sys
import time
import unittest
from pathlib import Path

from sweep.engine import Work, gnu_parallel
from sweep.tests.folders import REFERENCE, TABLE, Folder

# Stands in for ssh: notes the host, and runs the words elsewhere, with nothing of this environment but its path and home.
STAND_IN = """\
#!/bin/sh
while [ "${1#-}" != "$1" ]; do
    case $1 in -l | -p | -F) shift ;; esac
    shift
done
echo "$1" >>"$(dirname "$0")/hosts"
shift
[ "$1" != -- ] || shift
cd / && exec env -i PATH="$PATH" HOME="$HOME" SHELL=/bin/sh sh -c "$*"
"""

# Stands in for an ssh to a host that is not there.
NO_HOST = """\
#!/bin/sh
echo "$1" >>"$(dirname "$0")/hosts"
exit 255
"""

# Runs the script by the reference, and notes where.
NOTING = """\
#!/bin/sh
echo "${SSH_CONNECTION:-here}" >>"$(dirname "$0")/where"
exec REFERENCE "$@"
"""

SERVER = """\
Port {port}
ListenAddress 127.0.0.1
HostKey {folder}/host
AuthorizedKeysFile {folder}/user.pub
PidFile none
StrictModes no
UsePAM no
PasswordAuthentication no
"""

CLIENT = """\
Host node1 node2
  HostName 127.0.0.1
  Port {port}
  IdentityFile {folder}/user
  UserKnownHostsFile {folder}/known
  StrictHostKeyChecking no
  BatchMode yes
  LogLevel ERROR
"""


def executable(file: Path, text: str) -> Path:
    file.write_text(text)
    file.chmod(0o755)
    return file


@unittest.skipIf(gnu_parallel() is None, "skipped: sweeps over several machines, since GNU parallel is not here")
class Machines(Folder):
    def test_a_login_without_ssh(self) -> None:
        self.write()
        ended = self.sweep("--sshlogin", ":", "--jobs", "2")
        self.assertEqual((ended.returncode, self.table()), (0, TABLE), ended.stderr)

    def test_a_stand_in_for_ssh(self) -> None:
        self.write()
        ended = self.sweep("--sshlogin", "node1,2/node2", "--jobs", "1", path=self.ssh(STAND_IN))
        self.assertEqual((ended.returncode, self.table()), (0, TABLE), ended.stderr)
        self.assertEqual(set((self.folder / "hosts").read_text().split()), {"node1", "node2"})

    def test_ssh_to_this_machine(self) -> None:
        client = self.server()
        self.write()
        program = executable(self.folder / "noting", NOTING.replace("REFERENCE", REFERENCE))
        logins = f":,ssh -F {client} node1,2/ssh -F {client} node2"
        ended = self.sweep("--sshlogin", logins, "--jobs", "1", program=str(program))
        self.assertEqual((ended.returncode, self.table()), (0, TABLE), ended.stderr)
        where = (self.folder / "where").read_text().splitlines()
        self.assertEqual(len(where), 9)
        self.assertEqual({line.split()[0] for line in where}, {"here", "127.0.0.1"})

    def test_machines_that_are_missing(self) -> None:
        self.write()
        ended = self.sweep("--sshlogin", "node1", "--jobs", "1", path=self.ssh(NO_HOST))
        self.assertEqual(ended.returncode, 3)
        self.assertIn("the engine ended with 0 of 9 runs done", ended.stderr)
        again = self.sweep("--sshlogin", ":,node2", "--jobs", "1", path=self.ssh(NO_HOST))
        self.assertEqual((again.returncode, self.table()), (0, TABLE), again.stderr)
        self.assertEqual(set((self.folder / "hosts").read_text().split()), {"node1", "node2"})

    def ssh(self, text: str) -> str:
        """A path whose ssh is this one."""
        executable(self.folder / "ssh", text)
        return f"{self.folder}{os.pathsep}{os.environ['PATH']}"

    def server(self) -> Path:
        """Starts an ssh server for this test alone, and gives the configuration of a client that reaches it."""
        programs = {name: shutil.which(name, path=f"{os.environ['PATH']}:/usr/sbin") for name in ("sshd", "ssh", "ssh-keygen")}
        for name, program in programs.items():
            if program is None:
                self.skipTest(f"skipped: a sweep over ssh to this machine, since {name} is not here")
        for name in ("host", "user"):
            subprocess.run([programs["ssh-keygen"], "-q", "-t", "ed25519", "-N", "", "-f", str(self.folder / name)], check=True)
        with socket.socket() as free:
            free.bind(("127.0.0.1", 0))
            port = free.getsockname()[1]
        for name, text in (("server", SERVER), ("client", CLIENT)):
            (self.folder / name).write_text(text.format(port=port, folder=self.folder))
        server = subprocess.Popen([programs["sshd"], "-D", "-f", str(self.folder / "server"), "-E", str(self.folder / "log")])
        self.addCleanup(server.wait)
        self.addCleanup(server.terminate)
        client = self.folder / "client"
        for _ in range(40):
            time.sleep(0.25)
            asked = ["ssh", "-F", str(client), "node1", f"test -x {sys.executable} && python3 -c 'import tomllib'"]
            if subprocess.run(asked, capture_output=True, check=False).returncode == 0:
                return client
        self.skipTest("skipped: a sweep over ssh to this machine, since no server could be started that knows this Python")


class Jobs(unittest.TestCase):
    def test_all_machines_have_work_to_the_end(self) -> None:
        for count, jobs, logins, size in ((9, 1, None, 3), (240, 4, None, 20), (240, 4, ":,node1", 10), (1, 8, None, 1), (10**6, 1, None, 1000)):
            self.assertEqual(Work(Path("a.toml"), ["a"], list(range(count)), jobs, logins).runs_a_job, size)


if __name__ == "__main__":
    unittest.main()
