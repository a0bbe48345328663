"""A chronyd of its own on loopback, and one that follows it: configuration, certificate, start and end."""
import datetime
import os
import pwd
import socket
import subprocess
import time

from cryptography import x509
from cryptography.hazmat.primitives import hashes, serialization
from cryptography.hazmat.primitives.asymmetric import ec
from cryptography.x509.oid import NameOID

from missing import program

HOST = "127.0.0.1"
CONFIGURATION = """\
port {ntp}
ntsport {keys}
bindaddress {host}
allow {host}
cmdport 0
{source}
ntsservercert {folder}/certificate.pem
ntsserverkey {folder}/key.pem
keyfile {folder}/keys
pidfile {folder}/chronyd.pid
user {user}
"""


def _free_port(kind):
    with socket.socket(socket.AF_INET, kind) as s:
        s.bind((HOST, 0))
        return s.getsockname()[1]


def _write_certificate(folder):
    key = ec.generate_private_key(ec.SECP256R1())
    name = x509.Name([x509.NameAttribute(NameOID.COMMON_NAME, "localhost")])
    now = datetime.datetime.utcnow()
    certificate = (
        x509.CertificateBuilder()
        .subject_name(name)
        .issuer_name(name)
        .public_key(key.public_key())
        .serial_number(x509.random_serial_number())
        .not_valid_before(now - datetime.timedelta(days=1))
        .not_valid_after(now + datetime.timedelta(days=1))
        .add_extension(x509.SubjectAlternativeName([x509.DNSName("localhost")]), critical=False)
        .add_extension(x509.BasicConstraints(ca=True, path_length=None), critical=True)
        .sign(key, hashes.SHA256())
    )
    with open(os.path.join(folder, "certificate.pem"), "wb") as f:
        f.write(certificate.public_bytes(serialization.Encoding.PEM))
    with open(os.path.join(folder, "key.pem"), "wb") as f:
        f.write(
            key.private_bytes(
                serialization.Encoding.PEM,
                serialization.PrivateFormat.PKCS8,
                serialization.NoEncryption(),
            )
        )
    os.chmod(os.path.join(folder, "key.pem"), 0o600)


def _write_symmetric_keys(folder, keys):
    lines = [f"{number} {name} HEX:{key.hex()}\n" for number, (name, key) in keys.items()]
    with open(os.path.join(folder, "keys"), "w", encoding="ascii", opener=_private) as f:
        f.writelines(lines)


def _private(path, flags):
    return os.open(path, flags, 0o600)


class Server:
    """`with Server(folder) as server`: it runs in between, on ports that were free. Its symmetric keys are, by number,
    the name of a hash and the key."""

    def __init__(self, folder):
        self.folder = folder
        self.ntp_port = _free_port(socket.SOCK_DGRAM)
        self.keys_port = _free_port(socket.SOCK_STREAM)
        self.certificate = os.path.join(folder, "certificate.pem")
        self.symmetric = {1: ("MD5", os.urandom(16)), 2: ("SHA1", os.urandom(20))}
        self.source = "local stratum 1"
        self.process = None

    def __enter__(self):
        _write_certificate(self.folder)
        _write_symmetric_keys(self.folder, self.symmetric)
        path = os.path.join(self.folder, "chronyd.conf")
        with open(path, "w", encoding="ascii") as f:
            f.write(
                CONFIGURATION.format(
                    ntp=self.ntp_port,
                    keys=self.keys_port,
                    host=HOST,
                    source=self.source,
                    folder=self.folder,
                    user=pwd.getpwuid(os.getuid()).pw_name,
                )
            )
        with open(os.path.join(self.folder, "chronyd.log"), "wb") as log:
            # -x: it leaves the machine's clock alone; -U: it needs no privileges.
            command = [program("chronyd"), "-d", "-x", "-U", "-f", path]
            self.process = subprocess.Popen(command, stdout=log, stderr=log)
        self._wait()
        return self

    def _wait(self):
        for _ in range(100):
            try:
                socket.create_connection((HOST, self.keys_port), timeout=1).close()
                return
            except OSError:
                if self.process.poll() is not None:
                    break
                time.sleep(0.05)
        with open(os.path.join(self.folder, "chronyd.log"), encoding="utf-8") as f:
            raise SystemExit("chronyd did not start:\n" + f.read())

    def __exit__(self, *_):
        self.process.terminate()
        self.process.wait(10)


# A clock that may drift by a tenth: its root dispersion grows so fast that it can be told from zero.
FOLLOWING = """\
server {host} port {port} iburst
maxclockerror 100000
bindcmdaddress {folder}/command.sock"""


class Follower(Server):
    """A chronyd of stratum 2, whose root delay and root dispersion are not zero."""

    def __init__(self, folder, server):
        # chronyd opens its command socket in no folder with other permissions.
        os.mkdir(folder)
        os.chmod(folder, 0o770)
        super().__init__(folder)
        self.source = FOLLOWING.format(host=HOST, port=server.ntp_port, folder=folder)

    def root_seconds(self):
        """Root delay and root dispersion in seconds, as chronyd itself tells them."""
        command = [program("chronyc"), "-c", "-h", os.path.join(self.folder, "command.sock"), "tracking"]
        told = subprocess.run(command, capture_output=True, check=True, text=True).stdout.split(",")
        return float(told[10]), float(told[11])
