"""Packets in a capture file, for tools that hand them to tshark, and what tshark shows of them."""
import os
import struct
import subprocess
import tempfile
from xml.etree import ElementTree


def capture_of(packets):
    """A pcap file: each packet as a UDP payload over IPv4, from the port of NTP."""
    whole = struct.pack("<IHHiIII", 0xA1B2C3D4, 2, 4, 0, 0, 65535, 101)
    for packet in packets:
        udp = struct.pack(">HHHH", 123, 40000, 8 + len(packet), 0) + packet
        ip = struct.pack(">BBHHHBBHII", 0x45, 0, 20 + len(udp), 0, 0, 64, 17, 0, 0x7F000001, 0x7F000001)
        whole += struct.pack("<IIII", 0, 0, len(ip + udp), len(ip + udp)) + ip + udp
    return whole


def run_tshark(*words):
    """What tshark prints, with the names of months in English."""
    run = subprocess.run(["tshark", *words], capture_output=True, check=True, text=True, env=dict(os.environ, LC_ALL="C"))
    return run.stdout


def tshark_version():
    return run_tshark("--version").split("(Git")[0].strip()


def details_of(packets):
    """For each packet the tree that tshark makes of it (PDML)."""
    with tempfile.TemporaryDirectory() as folder:
        path = os.path.join(folder, "packets.pcap")
        with open(path, "wb") as f:
            f.write(capture_of(packets))
        return list(ElementTree.fromstring(run_tshark("-n", "-r", path, "-T", "pdml")).iter("packet"))
