#!/usr/bin/env python3
"""Stands in for systemctl, journalctl and loginctl where tests/pages.py runs a page's commands: it starts and ends what a unit says, in the folder
ROOT in place of /, and at PORT in place of 9997. What it doesn't know is a fault.

Usage: systemctl [--user] VERB [--now] [UNIT]; journalctl [--user] -t UNIT -n N -o cat; loginctl enable-linger"""
import os
import re
import signal
import subprocess
import sys
import time
from pathlib import Path

ROOT = Path(os.environ["ROOT"])


def inside(text):
    """Returns a text with the folders of the machine, and the port, as they are here."""
    return re.sub(r"(?<![\w./~-])/(etc|run|usr/local|var/lib)\b", rf"{ROOT}/\1", text).replace("9997", os.environ["PORT"])


class Unit:
    def __init__(self, name, of_user):
        self.log, self.pid = (ROOT / f"{name}.{'user' if of_user else 'system'}.{it}" for it in ("log", "pid"))
        folder = Path.home() / ".config/systemd/user" if of_user else ROOT / "usr/local/lib/systemd/system"
        more = sorted((ROOT / f"etc/systemd/system/{name}.service.d").glob("*.conf"))
        self.settings = {}
        for line in "".join(it.read_text() for it in (folder / f"{name}.service", *more)).splitlines():
            key, equals, value = line.partition("=")
            if equals and not line.startswith("#"):
                self.settings[key] = inside(value.replace("%h", str(Path.home())))

    def command(self):
        file = Path(inside(self.settings.get("EnvironmentFile", "/nowhere").lstrip("-")).replace("/usr/local/etc/", "/etc/"))
        lines = self.settings.get("Environment", "").split() + (file.read_text().splitlines() if file.exists() else [])
        values = {key: inside(value) for key, equals, value in (it.partition("=") for it in lines) if equals and not key.startswith("#")}
        return re.sub(r"\$\{(\w+)\}|\$(\w+)", lambda it: values.get(it[1] or it[2], ""), self.settings["ExecStart"]).split()

    def is_running(self):
        try:
            return Path(f"/proc/{self.pid.read_text()}/stat").read_text().rpartition(")")[2].split()[0] not in "ZX"
        except OSError:
            return False

    def folders(self):
        for key, place in (("StateDirectory", "var/lib"), ("RuntimeDirectory", "run")):
            for name in self.settings.get(key, "").split():
                public = private = ROOT / place / name
                if key == "StateDirectory" and self.settings.get("DynamicUser") == "yes":
                    private = public.parent / "private" / name
                    private.parent.mkdir(mode=0o700, exist_ok=True)
                    if public.is_dir() and not public.is_symlink():
                        public.rename(private)
                    if not public.is_symlink():
                        public.symlink_to(f"private/{name}")
                private.mkdir(mode=int(self.settings.get(f"{key}Mode", "755"), 8), exist_ok=True)

    def start(self):
        if self.is_running():
            return
        self.folders()
        with open(self.log, "ab") as log:
            began = log.tell()
            child = subprocess.Popen(self.command(), stdin=subprocess.DEVNULL, stdout=log, stderr=log, umask=0o077, start_new_session=True)
        self.pid.write_text(str(child.pid))
        while child.poll() is None and b"listening " not in self.log.read_bytes()[began:]:
            time.sleep(0.02)

    def stop(self):
        if self.is_running():
            os.kill(int(self.pid.read_text()), signal.SIGTERM)
        while self.is_running():
            time.sleep(0.02)


def systemctl(words):
    of_user, now = "--user" in words, "--now" in words
    verb, *names = (it for it in words if it not in ("--user", "--now"))
    if verb not in ("daemon-reload", "disable", "enable", "reset-failed", "restart", "start", "stop"):
        sys.exit(f"systemctl: {verb}: the stand-in doesn't know it")
    for unit in (Unit(name, of_user) for name in names):
        if verb in ("stop", "restart") or (verb, now) == ("disable", True):
            unit.stop()
        if verb in ("start", "restart") or (verb, now) == ("enable", True):
            unit.start()


def journalctl(words):
    of_user = "--user" in words
    option, name, lines, *form = (it for it in words if it not in ("--user", "-n"))
    if (option, form) != ("-t", ["-o", "cat"]):
        sys.exit("journalctl: the stand-in doesn't know it")
    print(*Unit(name, of_user).log.read_text().splitlines()[-int(lines) :], sep="\n")


def loginctl(words):
    if words != ["enable-linger"]:
        sys.exit("loginctl: the stand-in doesn't know it")


if __name__ == "__main__":
    {"systemctl": systemctl, "journalctl": journalctl, "loginctl": loginctl}[os.path.basename(sys.argv[0])](sys.argv[1:])
