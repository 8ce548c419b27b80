"""The program that the checks of the repository's own run."""
import os
import subprocess

TOP = os.path.dirname(os.path.dirname(os.path.abspath(__file__)))
BUILT = f"{TOP}/crates/lava/out/lava"


def program():
    """Returns what stands in the place of ./lava, or None where nothing is there to run: what LAVA names, else what the gate has built in this
    checkout, else what ./lava has, where that begins nothing (it is asked by `./lava status`)."""
    named = os.environ.get("LAVA")
    if named:
        return os.path.abspath(named)
    if os.access(BUILT, os.X_OK):
        return BUILT
    asked = subprocess.run([f"{TOP}/lava", "status"], cwd=TOP, stdin=subprocess.DEVNULL, capture_output=True, text=True, check=False)
    return f"{TOP}/lava" if asked.returncode == 0 and asked.stdout.lower().startswith("proved") else None
