"""What the exchange needs and this machine lacks."""
import importlib.util
import shutil
import sys

# Debian puts chronyd where a user's PATH does not look.
SYSTEM = "/usr/sbin"

MODULES = {"OpenSSL": "python3-openssl", "cryptography": "python3-cryptography"}
PROGRAMS = {"chronyd": "chrony", "gcc": "gcc"}


def program(name):
    """Where a program is, or None."""
    return shutil.which(name) or shutil.which(name, path=SYSTEM)


def check_all():
    """Ends with status 2 and the packages to install, if one is missing."""
    packages = [package for module, package in MODULES.items() if importlib.util.find_spec(module) is None]
    packages += [package for name, package in PROGRAMS.items() if program(name) is None]
    if packages:
        print(f"interop: missing. Install Debian's {' '.join(packages)}.", file=sys.stderr)
        if "python3-openssl" in packages or "python3-cryptography" in packages:
            print(f"interop: this is {sys.executable}; the packages serve /usr/bin/python3.", file=sys.stderr)
        sys.exit(2)
    if shutil.which("rt") is None:
        print("interop: rt of the Rattle kit is not on the PATH.", file=sys.stderr)
        sys.exit(2)
