"""What a check needs of the system it runs on."""
import os, shutil, subprocess, sys


def need(command, package):
    """Makes sure that a command is there: Debian's package is installed where it is not, as root. Else the check ends, and fails."""
    if shutil.which(command) or is_installed(package) and shutil.which(command):
        return
    sys.exit(f"{os.path.basename(sys.argv[0])} needs the command {command}, which is not there: apt-get install {package}")


def is_installed(package):
    if os.geteuid() != 0 or not shutil.which("apt-get"):
        return False
    quiet = {"stdin": subprocess.DEVNULL, "stdout": subprocess.DEVNULL, "stderr": subprocess.DEVNULL}
    quiet["env"] = {**os.environ, "DEBIAN_FRONTEND": "noninteractive"}
    install = ["apt-get", "install", "-y", "-qq", "--no-install-recommends", "-o", "DPkg::Lock::Timeout=300", package]
    if subprocess.run(install, **quiet).returncode == 0:
        return True
    subprocess.run(["apt-get", "update", "-qq"], **quiet)
    return subprocess.run(install, **quiet).returncode == 0
