"""Hosts for `examples/shards/try-hosts`: ssh servers in namespaces of their own (network, mounts, processes), each joined to the one in which
the script runs by a link of two addresses. A host has a home and a /tmp of its own, and sees nothing of the script's folders.

Each ssh server lets one key in, and sends what comes in through a script, the door, which writes it down and holds it where it is told to.
"""
import os
import pwd
import re
import socket
import subprocess
import time
from pathlib import Path

HOME = pwd.getpwuid(0).pw_dir
SSHD = "/usr/sbin/sshd"
NAMES = ("one", "two", "three")
WAITS = 60

DOOR = """\
#!/bin/bash
# Writes down what comes in, and holds it as long as there is a file that says so: a job at its end, anything else at its beginning.
cd "$HOME/door" || exit 255
case $SSH_ORIGINAL_COMMAND in
    *"rsync --server --sender"*) kind=back ;;
    *"rsync --server"*) kind=there ;;
    *perl*) kind=job ;;
    *) kind=other ;;
esac
hold() { for ((turn = 0; turn < 2400; turn++)); do [ -e "$HOME/door/hold.$kind" ] && sleep 0.05 || return; done; }
printf '%s %q\\n' "$kind" "$SSH_ORIGINAL_COMMAND" >>log
[ $kind = job ] || hold
cd && bash -c "$SSH_ORIGINAL_COMMAND"
status=$?
[ $kind != job ] || hold
exit $status
"""
START = """\
set -e
mount --bind {folder}/{name} {home}
for hidden in {top} {folder} /tmp; do
    case {home}/ in "$hidden"/*) ;; *) mount -t tmpfs tmpfs "$hidden" ;; esac
done
mount -t tmpfs tmpfs /run
mkdir /run/sshd
until ip link set eth0 up 2>/dev/null; do sleep 0.02; done
ip addr add {address}/30 dev eth0
exec {sshd} -D -e -f {home}/door/sshd_config
"""
SERVER = """\
HostKey {home}/door/server
AuthorizedKeysFile {home}/door/client.pub
ForceCommand {home}/door/door
ListenAddress {address}
PidFile none
StrictModes no
UsePAM no
UseDNS no
PasswordAuthentication no
PermitRootLogin prohibit-password
MaxStartups 100
LogLevel FATAL
"""
CLIENT = """\
Host one two three
    User root
    IdentityFile {folder}/client
    IdentitiesOnly yes
    UserKnownHostsFile {folder}/known
    GlobalKnownHostsFile /dev/null
    BatchMode yes
    LogLevel ERROR
    ConnectTimeout 5
    ServerAliveInterval 2
    ServerAliveCountMax 3
"""


class TooLate(Exception):
    """What was waited for didn't happen."""


def make_keys(folder):
    """Keys of the servers and of who comes in, and what ssh is told of the hosts."""
    for name in ("server", "client"):
        subprocess.run(["ssh-keygen", "-q", "-t", "ed25519", "-N", "", "-f", str(folder / name)], check=True)
    key = " ".join((folder / "server.pub").read_text().split()[:2])
    addresses = [address_of(number) for number in range(len(NAMES))]
    (folder / "known").write_text(f"{','.join(addresses)} {key}\n")
    hosts = "".join(f"Host {name}\n    HostName {address}\n" for name, address in zip(NAMES, addresses))
    (folder / "ssh_config").write_text(CLIENT.format(folder=folder) + hosts)
    (folder / "hosts").write_text("".join(f"{name}\n" for name in NAMES))


def address_of(number, end=2):
    """The address of a host, or with 1 that of the other end of its link."""
    return f"192.0.2.{4 * number + end}"


def wait_until(happens, what):
    """Waits some seconds until something happens."""
    for _ in range(WAITS * 50):
        if happens():
            return
        time.sleep(0.02)
    raise TooLate(f"{what} didn't happen in {WAITS} seconds")


class Host:
    """An ssh server in namespaces of its own."""

    def __init__(self, folder, top, number):
        self.name, self.link, self.address, self.is_away = NAMES[number], f"link{number}", address_of(number), False
        self.door = folder / self.name / "door"
        self.door.mkdir(parents=True)
        for name in ("server", "client.pub"):
            (self.door / name).write_bytes((folder / name).read_bytes())
            (self.door / name).chmod(0o600)
        (self.door / "door").write_text(DOOR)
        (self.door / "door").chmod(0o700)
        (self.door / "sshd_config").write_text(SERVER.format(home=HOME, address=self.address))
        start = START.format(folder=folder, name=self.name, top=top, home=HOME, address=self.address, sshd=SSHD)
        words = ["unshare", "--net", "--mount", "--pid", "--fork", "--kill-child", "--mount-proc", "bash", "-c", start]
        self.process = subprocess.Popen(words, stdin=subprocess.DEVNULL)
        here = os.readlink("/proc/self/ns/net")
        wait_until(lambda: os.readlink(f"/proc/{self.process.pid}/ns/net") != here, f"the namespace of host {self.name}")
        ip("link", "add", self.link, "type", "veth", "peer", "name", "eth0", "netns", str(self.process.pid))
        ip("addr", "add", f"{address_of(number, 1)}/30", "dev", self.link)
        ip("link", "set", self.link, "up")

    def hold(self, kind):
        """Holds what comes in of a kind (`there`, `job`, `back`) until it is let go."""
        (self.door / f"hold.{kind}").touch()

    def let_go(self):
        for file in self.door.glob("hold.*"):
            file.unlink()

    def is_up(self):
        try:
            socket.create_connection((self.address, 22), 0.5).close()
            return True
        except OSError:
            return False

    def seen(self, kind):
        """What came in of a kind."""
        log = self.door / "log"
        lines = log.read_text().splitlines() if log.exists() else []
        return [line.partition(" ")[2] for line in lines if line.startswith(f"{kind} ")]

    def begun(self):
        """The numbers of the shards that were begun here. GNU parallel sends a job in hexadecimal digits."""
        texts = [bytes.fromhex(digits) for job in self.seen("job") for digits in re.findall(r"\b(?:[0-9a-f]{2}){40,}\b", job)]
        return [int(number) for text in texts for number in re.findall(rb"given/shard (\d+)", text)]

    def cut(self):
        """Takes the host away without a word: nothing comes from it any more, and nothing says so."""
        ip("link", "set", self.link, "down")
        self.is_away = True

    def end(self):
        """Ends all that runs on the host at once; its connections break."""
        self.process.kill()
        self.process.wait()
        self.is_away = True

    def remove(self):
        """Ends the host, and takes its link away, which may outlive it."""
        self.end()
        ip("link", "delete", self.link, check=False)


def ip(*words, check=True):
    subprocess.run(["ip", *words], check=check, stderr=None if check else subprocess.DEVNULL)


def start_hosts(folder, top):
    """The three hosts, when they let come in."""
    make_keys(folder)
    hosts = [Host(folder, top, number) for number in range(len(NAMES))]
    for host in hosts:
        wait_until(host.is_up, f"an answer of host {host.name}")
    return hosts
