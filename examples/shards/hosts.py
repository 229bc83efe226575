"""Runs shards on several machines, by GNU parallel over ssh.

What a host needs stands in one folder, which is copied there once: the program, the settings, the world and the scripts, the list of each
shard's classes, and a script that runs a shard. That script writes the program's status into a file and ends with 0; so a job fails only
where ssh or the host did, and GNU parallel runs it again, on another host if there is one. A red test is no failed job.
"""
import os
import re
import secrets
import shlex
import shutil
import socket
import subprocess
import sys
from pathlib import Path

from running import result_of
from suite import refuse

# The ssh that is used where PARALLEL_SSH names none: it asks nothing, and gives a silent host up after some 15 seconds.
SSH = "ssh -o BatchMode=yes -o ConnectTimeout=10 -o ServerAliveInterval=5 -o ServerAliveCountMax=3"
LOGIN = re.compile(r"(?:(\d+)/)?([^\s-]\S*)")
ROUNDS = 3

# A copy that isn't whole, room that isn't there, or a signal that ends the program is the host's fault. The program's own statuses are 0 to 3.
SCRIPT = """\
# Runs the shard with the number $1.
cd given || exit 64
sha256sum -c digests >/dev/null 2>&1 || {{ echo "shards: the suite isn't whole on this host" >&2; exit 64; }}
cd suite || exit 64
out=../../out/$1
rm -rf "$out"
mkdir -p "$out" && : >"$out/report.tap" || exit 64
../jtap run {words} >"$out/report.tap"
status=$?
[ $status -le 3 ] || exit $status
echo $status >"$out/status" || exit 64
"""


def logins_of(file):
    """How many shards run at once on the hosts of a file."""
    try:
        lines = [line.strip() for line in Path(file).read_text().splitlines()]
    except OSError as why:
        refuse(f"{file}: {why.strerror}", 3)
    logins = [LOGIN.fullmatch(line) for line in lines if line and not line.startswith("#")]
    if not logins or None in logins or any(login[2] == ":" for login in logins):
        refuse(f"{file}: each line is `HOST`, `USER@HOST` or `N/USER@HOST`, where N shards run at once")
    return sum(int(login[1] or 1) for login in logins)


def look_for_tools():
    """Refuses where a tool isn't there that has to be installed."""
    for tool, package in (("parallel", "parallel"), ("ssh", "openssh-client"), ("rsync", "rsync"), ("sha256sum", "coreutils")):
        if not shutil.which(tool):
            refuse(f"there is no {tool} here, which --hosts wants (on Debian: apt-get install {package})")
    version = subprocess.run(["parallel", "--version"], stdin=subprocess.DEVNULL, capture_output=True, text=True).stdout
    if not version.startswith("GNU parallel"):
        refuse("the parallel of this machine isn't GNU parallel, which --hosts wants (on Debian: apt-get install parallel)")


def prepare(suite, shards, folder, with_junit):
    """Puts all that a host needs into a folder."""
    given = Path(folder, "given")
    for name in ("suite", "lists"):
        Path(given, name).mkdir(parents=True)
    shutil.copy(suite.program, given / "jtap")
    for name in suite.files():
        if Path(name).is_absolute() or ".." in Path(name).parts:
            refuse(f"{name}: --hosts takes files that stand below this folder, and are named so")
        Path(given, "suite", name).parent.mkdir(parents=True, exist_ok=True)
        shutil.copyfile(suite.folder / name, given / "suite" / name)
    for shard in shards:
        Path(given, "lists", str(shard.number)).write_text(shard.listed())
    kept = '--only-from "../lists/$1"' + (' --junit "$out/report.xml"' if with_junit else "")
    Path(given, "shard").write_text(SCRIPT.format(words=f"{kept} {shlex.join(suite.words())}"))
    files = sorted(str(path.relative_to(given)) for path in given.rglob("*") if path.is_file())
    with open(Path(folder, "digests"), "wb") as digests:
        subprocess.run(["sha256sum", "--", *files], cwd=given, stdout=digests, check=True)
    os.replace(Path(folder, "digests"), given / "digests")


def run_on_hosts(suite, shards, folder, with_junit, hosts, retries, joblog):
    """Runs the shards on the hosts of a file. What a job left that ended well, but couldn't be brought back, is asked for once more."""
    prepare(suite, shards, folder, with_junit)
    place = f"jtap-shards-{socket.gethostname()}-{os.getpid()}-{secrets.token_hex(4)}"
    surroundings = {**os.environ, "PARALLEL_SSH": os.environ.get("PARALLEL_SSH", SSH)}
    common = ["parallel", "--plain", "--sshloginfile", str(Path(hosts).resolve())]
    joblog = Path(joblog or Path(folder, "joblog")).resolve()
    left = shards
    try:
        for turn in range(ROUNDS):
            log = ["--joblog", f"{'+' if turn else ''}{joblog}"]
            jobs = [*common, "-j1", "--retries", str(retries), *log, "--workdir", place, "--basefile", "given"]
            ended = subprocess.run([*jobs, "--return", "out/{}", "sh", "given/shard", "{}", ":::", *(str(shard.number) for shard in left)],
                                   cwd=folder, env=surroundings, stdin=subprocess.DEVNULL, stdout=sys.stderr).returncode
            left = [shard for shard in shards if result_of(folder, shard, with_junit) is None]
            if ended or not left:
                break
    finally:
        subprocess.run([*common, "-j0", "--nonall", "rm", "-rf", place], env=surroundings, stdin=subprocess.DEVNULL,
                       stdout=subprocess.DEVNULL, stderr=subprocess.DEVNULL)
    if left:
        numbers = ", ".join(str(shard.number) for shard in left)
        refuse(f"no host brought an end of these shards: {numbers}", 3)
    return [result_of(folder, shard, with_junit) for shard in shards]
