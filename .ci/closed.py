"""What of a unit's closing an ordinary user can apply without systemd as the machine's first process: the list of system
calls, the address families, the namespaces, memory that is written and run, and new privileges. The lists are those of
the unit itself, by the sets that `systemd-analyze syscall-filter` prints."""
import ctypes
import errno
import socket
import subprocess

ALLOW, ERRNO = 0x7FFF0000, 0x00050000
EQUAL, MASKED = 4, 7
# CLONE_NEWTIME, NEWNS, NEWCGROUP, NEWUTS, NEWIPC, NEWUSER, NEWPID and NEWNET.
NAMESPACES = 0x7E020080
# PROT_WRITE and PROT_EXEC.
WRITE, RUN = 2, 4
NO_NEW_PRIVILEGES = 38


class Test(ctypes.Structure):
    """A test of one of a call's arguments, as libseccomp has it."""
    _fields_ = [("arg", ctypes.c_uint), ("op", ctypes.c_int), ("first", ctypes.c_uint64), ("second", ctypes.c_uint64)]


def settings(unit):
    """The values of each key of the unit's service, in their order."""
    found = {}
    for line in unit.read_text().partition("[Service]\n")[2].partition("\n[")[0].splitlines():
        key, _, value = line.partition("=")
        found.setdefault(key, []).append(value)
    return found


def calls_of(name):
    """The calls that a name of a filter stands for: a set's, or its own."""
    if not name.startswith("@"):
        return {name}
    shown = subprocess.run(["systemd-analyze", "syscall-filter", name], capture_output=True, text=True, check=True).stdout
    names = [line.strip() for line in shown.splitlines()[1:] if not line.strip().startswith("#")]
    return set().union(*(calls_of(each) for each in names if each))


def allowed(filters):
    """The calls that are allowed by a unit's filters, and those that every unit may make."""
    calls = calls_of("@default")
    for line in filters:
        named = set().union(*(calls_of(name) for name in line.lstrip("~").split()))
        calls = calls - named if line.startswith("~") else calls | named
    return calls


class Filter:
    """The filter of a unit, to be loaded in a process that then runs the program."""

    def __init__(self, unit):
        told = settings(unit)
        self.calls = allowed(told["SystemCallFilter"]) - {"unshare", "setns"}
        self.families = [getattr(socket, name) for name in told["RestrictAddressFamilies"][0].split()]
        self.code_is_read_only = told["MemoryDenyWriteExecute"] == ["true"]
        self.library = ctypes.CDLL("libseccomp.so.2", use_errno=True)
        self.libc = ctypes.CDLL(None, use_errno=True)
        self.library.seccomp_init.restype = ctypes.c_void_p
        self.made = ctypes.c_void_p(self.library.seccomp_init(ERRNO | errno.EPERM))
        for name in sorted(self.calls):
            self.add(name)

    def add(self, name):
        number = self.library.seccomp_syscall_resolve_name(name.encode())
        if number < 0:
            return
        if name == "socket":
            for family in self.families:
                self.rule(ALLOW, number, Test(0, EQUAL, family, 0))
        elif name == "clone":
            self.rule(ALLOW, number, Test(0, MASKED, NAMESPACES, 0))
        elif name == "clone3":
            self.rule(ERRNO | errno.ENOSYS, number)
        elif name == "mmap" and self.code_is_read_only:
            for either in (0, WRITE, RUN):
                self.rule(ALLOW, number, Test(2, MASKED, WRITE | RUN, either))
        elif name in ("mprotect", "pkey_mprotect") and self.code_is_read_only:
            self.rule(ALLOW, number, Test(2, MASKED, RUN, 0))
        else:
            self.rule(ALLOW, number)

    def rule(self, action, number, *tests):
        array = (Test * max(len(tests), 1))(*tests)
        if self.library.seccomp_rule_add_array(self.made, ctypes.c_uint32(action), number, len(tests), array) != 0:
            raise OSError(f"libseccomp takes no rule for call {number}")

    def load(self):
        """Applies it to this process and what it starts, and for good."""
        if self.libc.prctl(NO_NEW_PRIVILEGES, 1, 0, 0, 0) != 0 or self.library.seccomp_load(self.made) != 0:
            raise OSError("the filter can't be loaded")
