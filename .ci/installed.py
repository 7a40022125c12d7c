"""What the checks of the package stand on: a root folder that the package is installed into, the commands that they want,
and the installed program as it serves."""
import hashlib
import http.client
import os
import re
import shutil
import subprocess
from pathlib import Path

TOP = Path(__file__).resolve().parent.parent
PROGRAM = Path(os.environ.get("PERMIT") or TOP / "crates/permit/out/permit").resolve()
# An ordinary user's path may lack what dpkg wants.
os.environ["PATH"] += ":/usr/sbin:/sbin"
CHIEF = "abcdefghijklmnopqrstuvwxyz"
FOUNDED, TODAY = "2023-12-09", "2024-01-01"
# Packages whose paragraphs the empty root takes from this machine, so that what the package depends on is looked at.
LIBRARIES = ["libc6", "libgcc-s1"]
faults, skipped = [], []


def want(holds, what):
    if not holds:
        faults.append(what)


def run(*words, **more):
    """What a command prints on both streams, and its status."""
    more = {"stdin": subprocess.DEVNULL, "timeout": 300, **more}
    done = subprocess.run(words, stdout=subprocess.PIPE, stderr=subprocess.STDOUT, text=True, **more)
    return done.returncode, done.stdout


def have(command):
    """Whether a command is there, or can be installed from Debian's package of its name."""
    if shutil.which(command) is None:
        install = ["apt-get", "-o", "DPkg::Lock::Timeout=60", "install", "-y", "--no-install-recommends"]
        names = {"man": "man-db", "ip": "iproute2", "sshd": "openssh-server", "systemd-nspawn": "systemd-container",
                 **dict.fromkeys(("systemd-analyze", "systemd-sysusers", "systemd-tmpfiles"), "systemd")}
        try:
            if run(*install, names.get(command, command))[0] != 0:
                run("apt-get", "update")
                run(*install, names.get(command, command))
        except OSError:
            pass
    if shutil.which(command) is None:
        skipped.append(command)
    return shutil.which(command) is not None


def files_in(folder):
    return {str(path.relative_to(folder)) for path in Path(folder).rglob("*") if not path.is_dir()}


def digests(folder):
    return {name: hashlib.sha256((Path(folder) / name).read_bytes()).hexdigest() for name in files_in(folder)}


class Root:
    """A folder that stands for a machine of its own, with nothing on it but the packages of LIBRARIES."""

    def __init__(self, folder):
        self.folder = Path(folder)
        self.office = self.folder / "var/lib/permit"
        state = self.folder / "var/lib/dpkg"
        (state / "info").mkdir(parents=True)
        (state / "updates").mkdir()
        (state / "status").write_text("\n".join(run("dpkg-query", "-s", name)[1] for name in LIBRARIES))
        for name in LIBRARIES:
            (state / f"info/{name}.list").touch()
            (state / f"info/{name}:{run('dpkg', '--print-architecture')[1].strip()}.list").touch()

    def dpkg(self, *words):
        options = [f"--root={self.folder}", "--force-not-root", "--force-script-chrootless", f"--log={self.folder}/dpkg.log"]
        done = run("dpkg", *options, *words)
        want(done[0] == 0, f"dpkg {' '.join(words)}: {done[1]}")
        return done[1]

    def path(self, name):
        return self.folder / name.lstrip("/")

    def installed(self):
        """The files outside what dpkg keeps for itself."""
        return {name for name in files_in(self.folder) if not name.startswith(("var/lib/dpkg/", "dpkg.log"))}


def ask(port, method, path, body=None):
    connection = http.client.HTTPConnection("127.0.0.1", port, timeout=60)
    connection.request(method, path, body, {"Authorization": f"Bearer {CHIEF}"})
    answer = connection.getresponse()
    return answer.status, answer.read().decode()


def serve(root, **more):
    """The installed program, serving the office with its history under the installed policy, and its port."""
    words = ["serve", "--db", "office.db", "--history", "office.history", "--policy", "policy.toml", "--listen", "127.0.0.1:0", "--day", TODAY]
    serving = subprocess.Popen([root.path("usr/bin/permit"), *words], cwd=root.office, stdout=subprocess.PIPE, text=True, **more)
    found = re.fullmatch(r"listening 127\.0\.0\.1:(\d+)\n", serving.stdout.readline())
    if not found:
        serving.kill()
        raise RuntimeError("the installed program doesn't serve")
    return serving, int(found[1])


def end(serving):
    """Ends it. What it wrote to standard error, where that is kept."""
    serving.terminate()
    return serving.communicate(timeout=60)[1]
