"""What the tests in Python share: counting checks, and tillrun as of the crates."""
import os
import subprocess
import sys

ROOT = os.path.dirname(os.path.dirname(os.path.abspath(__file__)))
TILLRUN = ROOT + "/target/bin/tillrun"
SESSIONS = ROOT + "/tests/reference/sessions/"
counts = {"passed": 0, "failed": 0}


def check(good, what):
    counts["passed" if good else "failed"] += 1
    if not good:
        print("FAILED:", what)


def read(name):
    with open(name, "rb") as file:
        return file.read()


def tillrun_built():
    """Proves and builds tillrun where it is missing or older than a crate."""
    newer = ["find", "crates", "crates.txt", "-newer", TILLRUN, "-print", "-quit"]
    if os.path.exists(TILLRUN) and not subprocess.run(newer, cwd=ROOT, capture_output=True).stdout:
        return True
    done = subprocess.run([ROOT + "/play"], stdin=subprocess.DEVNULL, capture_output=True)
    if done.returncode != 0:
        print((done.stdout + done.stderr).decode()[-2000:])
        return False
    os.utime(TILLRUN)
    return True


def finish():
    print(f"{counts['passed']} passed, {counts['failed']} failed")
    sys.exit(0 if counts["failed"] == 0 and counts["passed"] > 0 else 1)
