"""The load of bench/serve, and the servers of others that the benchmarks of this folder are shown beside."""

import os
import shutil
import socket
import subprocess
import sys
import time
import urllib.request

from over_tcp import free_port

HERE = os.path.dirname(os.path.abspath(__file__))


def verdict(goal, is_met):
    return "goal: %s: %s" % (goal, "met" if is_met else "NOT met")


class Load:
    """The program of bench/serve.c, compiled into the folder."""

    def __init__(self, folder):
        self.program = os.path.join(folder, "load")
        subprocess.run(["cc", "-O2", "-o", self.program, os.path.join(HERE, "serve.c")], check=True)

    def __call__(self, *words):
        """The numbers that it prints, by their names."""
        done = subprocess.run([self.program, *map(str, words)], stdout=subprocess.PIPE, text=True)
        if done.returncode != 0:
            sys.exit("the load failed: %s" % " ".join(map(str, words)))
        return {name: float(number) for name, number in (word.split("=") for word in done.stdout.split())}

    def looping(self, stack, *words):
        """The port of a bare loop, `loop FILE WAY` or `ends FILE`, which ends with the stack."""
        process = subprocess.Popen([self.program, *words], stdout=subprocess.PIPE, text=True)
        stack.callback(process.wait)
        stack.callback(process.kill)
        return int(process.stdout.readline().partition("=")[2])

    def held(self, port, count, paths=1, kind="presence"):
        """The load that holds so many sessions, each of which listens to so many paths, once it has them."""
        words = [self.program, "hold", kind, str(port), str(count), str(paths)]
        process = subprocess.Popen(words, stdin=subprocess.PIPE, stdout=subprocess.PIPE, text=True)
        if process.stdout.readline() != "held=1\n":
            sys.exit("the load failed: %s" % " ".join(words))
        return process


# ---- the servers of others

def redis_words(folder, port):
    return ["redis-server", "--bind", "127.0.0.1", "--port", str(port), "--dir", folder,
            "--save", "", "--appendonly", "yes", "--appendfsync", "always"]


def mosquitto_words(folder, port):
    config = os.path.join(folder, "mosquitto.conf")
    with open(config, "w") as file:
        file.write("listener %d 127.0.0.1\nallow_anonymous true\nuser root\n" % port)
        file.write("persistence true\npersistence_location %s/\n" % folder)
    return ["mosquitto", "-c", config]


def etcd_words(folder, port):
    own, peer = "http://127.0.0.1:%d" % port, "http://127.0.0.1:%d" % free_port()
    return ["etcd", "--data-dir", os.path.join(folder, "data"), "--listen-client-urls", own, "--advertise-client-urls", own,
            "--listen-peer-urls", peer, "--initial-advertise-peer-urls", peer, "--initial-cluster", "default=" + peer]


# The load's word for it, what its table says, and how it is started.
PEERS = (
    ("redis", "redis, appendfsync always", redis_words),
    ("mqtt", "mosquitto, QoS 1 (saves by time: no sync)", mosquitto_words),
    ("etcd", "etcd, its JSON gateway", etcd_words),
)


def is_up(kind, port):
    try:
        if kind == "etcd":
            return b"true" in urllib.request.urlopen("http://127.0.0.1:%d/health" % port, timeout=1).read()
        socket.create_connection(("127.0.0.1", port), 1).close()
        return True
    except OSError:
        return False


def start_peer(kind, words_of, folder, stack, environment=None):
    """The process and the port of a peer that is started in a folder of its own, and ends with the stack; none where it isn't
    installed. Its environment is another than this one's where one is given."""
    folder = os.path.join(folder, kind)
    os.makedirs(folder, exist_ok=True)
    port = free_port()
    words = words_of(folder, port)
    program = shutil.which(words[0], path=os.environ["PATH"] + ":/usr/sbin:/sbin")
    if program is None:
        return None
    log = stack.enter_context(open(os.path.join(folder, "log"), "w"))
    process = subprocess.Popen([program, *words[1:]], stdout=log, stderr=log, env=environment)
    stack.callback(process.wait)
    stack.callback(process.kill)
    for _ in range(2000):
        if is_up(kind, port):
            return process, port
        time.sleep(0.01)
    sys.exit("%s doesn't come up" % words[0])


def use_of(process):
    """The processor seconds that a process has used, and its memory in KiB."""
    with open("/proc/%d/stat" % process.pid) as file:
        fields = file.read().rpartition(")")[2].split()
    with open("/proc/%d/status" % process.pid) as file:
        memory = next(int(line.split()[1]) for line in file if line.startswith("VmRSS:"))
    return (int(fields[11]) + int(fields[12])) / os.sysconf("SC_CLK_TCK"), memory
