"""The packages that the commands in tools/ and their tests need: what is missing of them, and how it is installed."""

import importlib
import importlib.util
import os
import shutil
import subprocess
import sys
from dataclasses import dataclass
from typing import Any


@dataclass(frozen=True)
class Package:
    """A package of Debian, with the command or the module of Python that it brings, and the name of the module's package in pip."""

    name: str
    command: str = ""
    module: str = ""
    in_pip: str = ""

    def is_there(self) -> bool:
        """Whether this machine has what it brings."""
        if self.command:
            return shutil.which(self.command) is not None
        return importlib.util.find_spec(self.module) is not None

    def is_of_pip(self) -> bool:
        """Whether pip brings it here: a Python that is not the system's does not see the modules of the system's packages."""
        return bool(self.module) and not os.path.realpath(sys.executable).startswith("/usr/bin/")


INSTALL = "tools/packages --install installs it"
PACKAGES = (Package("protobuf-compiler", command="protoc"), Package("python3-yaml", module="yaml", in_pip="PyYAML"))


def missing() -> list[Package]:
    """The packages that are missing."""
    importlib.invalidate_caches()
    return [it for it in PACKAGES if not it.is_there()]


def system_command(packages: list[Package]) -> list[str]:
    """The command by which the system's package manager installs packages."""
    return ["apt-get", "install", "-y", *(it.name for it in packages)]


def cure(packages: list[Package]) -> str:
    """The command to type that installs packages."""
    of_pip = [it for it in packages if it.is_of_pip()]
    others = [it for it in packages if not it.is_of_pip()]
    commands = []
    if others:
        commands.append(" ".join([*([] if os.geteuid() == 0 else ["sudo"]), *system_command(others)]))
    if of_pip:
        commands.append(f"{sys.executable} -m pip install {' '.join(it.in_pip for it in of_pip)}")
    return " && ".join(commands)


def sentence(packages: list[Package]) -> str:
    """What is said of packages that are missing."""
    lacks = " and ".join(it.command or f"Python's module {it.module}" for it in packages)
    return f"{lacks} {'is' if len(packages) == 1 else 'are'} missing: {cure(packages)}"


def install(packages: list[Package]) -> None:
    """Installs by apt-get what it brings, as root or by sudo, where that asks for no password."""
    packages = [it for it in packages if not it.is_of_pip()]
    before = [] if os.geteuid() == 0 else ["sudo", "-n"]
    if not packages or shutil.which("apt-get") is None or before and shutil.which("sudo") is None:
        return
    quiet: dict[str, Any] = {"stdin": subprocess.DEVNULL, "stdout": subprocess.DEVNULL, "stderr": subprocess.DEVNULL}
    environment = {**os.environ, "DEBIAN_FRONTEND": "noninteractive"}
    if subprocess.run([*before, *system_command(packages)], env=environment, **quiet).returncode:
        # A fresh machine may have no list of packages yet.
        for command in (["apt-get", "update"], system_command(packages)):
            subprocess.run([*before, *command], env=environment, **quiet)
