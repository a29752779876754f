#!/usr/bin/env python3
"""What the scripts of this folder say where something is missing: one line, and no status 0."""
import pathlib
import socket
import subprocess
import sys
import tempfile
import unittest

HERE = pathlib.Path(__file__).resolve().parent

PYTHON = sys.executable


class BadInput(unittest.TestCase):
    """One line says what and where."""

    def says(self, line, program, *words):
        """A script says a line, and nothing else."""
        command = ["bash"] if program.endswith(".sh") else [PYTHON]
        ran = subprocess.run([*command, HERE / program, *words], capture_output=True, text=True, check=False, timeout=300)
        self.assertNotEqual(ran.returncode, 0)
        self.assertEqual((ran.stdout, ran.stderr), ("", line + "\n"))

    def setUp(self):
        room = tempfile.TemporaryDirectory()
        self.addCleanup(room.cleanup)
        self.room = room.name
        with socket.create_server(("127.0.0.1", 0)) as free:
            self.nobody = "127.0.0.1:%d" % free.getsockname()[1]

    def test_a_network(self):
        self.says(f"test_network: {self.room}: File exists", "test_network.py", "make", self.room)
        self.says(f"test_network: {self.room}/network: No such file or directory", "test_network.py", "check", self.room)
        self.says("run.sh: /no/dirauth is no program", "run.sh", "/no/dirauth", f"{self.room}/new")
        self.says(f"test_network: {self.room}: File exists", "run.sh", PYTHON, self.room)

    def test_uploads(self):
        self.says("uploads: /no/dirauth is no program", "try/uploads.py", "/no/dirauth")
        self.says(f"uploads: {self.room} is no program", "try/uploads.py", self.room)

    def test_who_does_not_answer(self):
        refused = f"{self.nobody}: Connection refused"
        self.says(f"broken: {refused}", "try/broken.py", HERE / "run.sh", self.nobody)
        self.says(f"crowd: {refused}", "try/crowd.py", self.nobody)
        self.says(f"hold: {refused}", "try/hold.py", self.nobody, "1")
        self.says("hold: there is no process 0", "try/hold.py", self.nobody, "0")

    def test_files_and_programs(self):
        self.says("usage: paths.sh DESCRIPTOR IP:PORT IP:PORT: a file, and two authorities", "try/paths.sh", self.room)
        self.says("slow_peers: /no/dirmirror: No such file or directory", "try/slow_peers.py", "/no/dirmirror")
        self.says(f"periods: {self.room}: it has no auth*.station", "try/periods.py", PYTHON, self.room)
        pathlib.Path(self.room, "auth1.station").write_text("", "ascii")
        self.says(f"periods: {self.room}/auth1.station: it is no station input", "try/periods.py", PYTHON, self.room)


if __name__ == "__main__":
    unittest.main()
