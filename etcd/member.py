"""An etcd of one member, with an empty store, on a free port of the loopback: for the tests of this folder."""
import contextlib
import os
import shutil
import socket
import subprocess
import sys
import tempfile
import time


def free_addresses():
    """Returns two addresses of the loopback whose ports are free."""
    sockets = [socket.create_server(("127.0.0.1", 0)) for _ in range(2)]
    addresses = [f"http://127.0.0.1:{one.getsockname()[1]}" for one in sockets]
    for one in sockets:
        one.close()
    return addresses


def started(folder):
    """Starts an etcd with an empty store; returns its process and its address."""
    clients, peers = free_addresses()
    words = ["etcd", "--name=one", f"--data-dir={folder}/data", f"--listen-client-urls={clients}", f"--advertise-client-urls={clients}"]
    words += [f"--listen-peer-urls={peers}", f"--initial-advertise-peer-urls={peers}", f"--initial-cluster=one={peers}"]
    words += ["--logger=zap", "--log-level=error", "--log-outputs=/dev/null"]
    plain = {name: value for name, value in os.environ.items() if not name.startswith("ETCD")}
    process = subprocess.Popen(words, env=plain, stdin=subprocess.DEVNULL, stdout=subprocess.DEVNULL, stderr=subprocess.DEVNULL)
    host, port = clients[len("http://") :].split(":")
    for _ in range(300):
        try:
            socket.create_connection((host, int(port)), timeout=1).close()
            return process, clients
        except OSError:
            time.sleep(0.1)
    process.kill()
    sys.exit(f"{sys.argv[0]}: etcd does not answer")


@contextlib.contextmanager
def running():
    """Gives the address of an etcd and a folder, both there until it is left."""
    folder = tempfile.mkdtemp(prefix="etcd_stm_", dir="/dev/shm" if os.path.isdir("/dev/shm") else None)
    process, address = started(folder)
    try:
        yield address, folder
    finally:
        process.kill()
        process.wait()
        shutil.rmtree(folder, ignore_errors=True)
