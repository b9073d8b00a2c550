"""What a check of a folder says, for tests."""
import json
import subprocess


def parses(faults):
    return all(it["rule"][0] not in "LPE" for it in faults)


def checked(check, root):
    """What a fresh check tells of each file: the place and the rule of each fault that follows from no other one; and all faults."""
    ran = subprocess.run([*check, root], stdout=subprocess.PIPE, stderr=subprocess.PIPE, text=True)
    faults = [json.loads(line) for line in ran.stdout.split("\n") if line.startswith("{")]
    found = {}
    for it in faults:
        if not it.get("cause"):
            found.setdefault(it["file"], set()).add((it["line"] - 1, it["column"] - 1, it["rule"]))
    return found, faults
