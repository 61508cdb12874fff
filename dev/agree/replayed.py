"""warren's side: the operations as a script of `warren replay`, and its answers, read of the transcript."""

import contextlib
import io
import json
import os
import subprocess
from collections import Counter

from dev.agree.operations import NoAnswer, answers


class NotReplayed(Exception):
    """warren refused the files, or ended in another way; the text says how."""


def script_of(runs):
    """The script in which clients ask the same one after the other, one client a run, each operation as one piece."""
    lines = ["ready 1\n" for _ in runs]
    lines += [f"in {client} {operation.asked.hex()}\n" for client, done in enumerate(runs, 1) for operation, _ in done]
    return "".join(lines)


def transcript(warren, folder, definitions, runs):
    """Replays the runs over a definitions file's value. Returns the lines that warren prints; both files stay in the folder."""
    names = [os.path.join(folder, it) for it in ("definitions.json", "script")]
    for name, text in zip(names, (json.dumps(definitions), script_of(runs))):
        with open(name, "w", encoding="utf-8") as file:
            file.write(text)
    try:
        ran = subprocess.run([warren, "replay", names[1], "--definitions", names[0]], capture_output=True, text=True)
    except OSError as error:
        raise NotReplayed(f"{warren}: {error.strerror}") from None
    if ran.returncode:
        raise NotReplayed(f"warren replay ends with {ran.returncode}: {ran.stderr.strip()}")
    return ran.stdout.splitlines()


def answers_to(done, output):
    """What was answered to each operation of a run, read of the bytes that its client was sent. What is left over is an answer more."""
    file, found = io.BytesIO(output), []
    with contextlib.suppress(NoAnswer):
        for operation, _ in done:
            found.append(answers(file, operation))
        rest = file.read()
        if rest:
            found.append([f"{len(rest)} bytes more"])
    return found


def replay(warren, folder, definitions, runs):
    """Replays the runs. Returns for each the answers, operation by operation; and how often each kind of note was made."""
    lines = transcript(warren, folder, definitions, runs)
    outputs = {int(line.split()[1]): bytes.fromhex(line.split()[2].strip("-")) for line in lines if line.startswith("out ")}
    notes = Counter(kind_of(line) for line in lines if not line.startswith("out "))
    return [answers_to(done, outputs[client]) for client, done in enumerate(runs, 1)], notes


def kind_of(note):
    """`entered publish`, `left rejected`, `returned` and so on, of a line of the transcript."""
    words = note.split()
    last = words[-1] if words[0] in ("entered", "left", "confirmed") else ""
    return f"{words[0]} {last}".strip()
