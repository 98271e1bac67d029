"""Checks that a systemd unit allows each system call that strace recorded: running_holds.py UNIT TRACE. running_holds.sh runs this program."""
import re
import subprocess
import sys

unit, trace = (open(name, encoding="utf-8").read() for name in sys.argv[1:])


def calls_of(name):
    if not name.startswith("@"):
        return {name}
    lines = subprocess.run(
        ["systemd-analyze", "syscall-filter", name], check=True, capture_output=True, text=True
    ).stdout.splitlines()
    return set().union(
        *(
            calls_of(line.strip())
            for line in lines[1:]
            if line.strip() and not line.strip().startswith("#")
        )
    )


allowed = set()
for line in re.findall(r"^SystemCallFilter=(.*)$", unit, re.M):
    named = set().union(*(calls_of(name) for name in line.lstrip("~").split()))
    allowed = allowed - named if line.startswith("~") else allowed | named
made = set(re.findall(r"^\d+ +([a-z_0-9]+)\(", trace, re.M)) - {"execve"}
lacking = made - allowed
families = set(re.findall(r"socket\((AF_[A-Z0-9]+)", trace)) - set(
    re.findall(r"^RestrictAddressFamilies=(.*)$", unit, re.M)[0].split()
)
written = [
    path
    for path, how in re.findall(r'openat\(\S+, "([^"]*)", (\S+)', trace)
    if "O_RDONLY" not in how and "/state/" not in path
]
both = re.findall(r"m(?:map|protect)\(.*PROT_WRITE\|PROT_EXEC.*", trace)
if not made or lacking or families or written or both:
    sys.exit(f"the unit doesn't allow what the desk does: {lacking} {families} {written} {both}")
