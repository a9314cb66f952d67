"""The proved listing program, run on one stream and compared with the second program."""
import pathlib
import subprocess
import tempfile

from .paper import listing, received, session_text


def listed(program, session, capture):
    """The events that the program lists, each as a dictionary of its lines, and how many packets had which answer (0: taken)."""
    text = session_text(session)
    with tempfile.TemporaryDirectory() as folder:
        pathlib.Path(folder, "session.txt").write_bytes(text)
        run = subprocess.run([pathlib.Path(program).resolve()], cwd=folder, input=capture, capture_output=True)
    if run.returncode or run.stderr:
        said = run.stderr.decode("ascii", "replace").strip() or f"it ended with status {run.returncode} and said nothing"
        raise ValueError(f"the listing program {program} failed: {said}")
    if run.stdout != listing(text, capture).encode():
        raise ValueError("THE TWO PROGRAMS DIFFER: please keep the recording")
    events = []
    for line in run.stdout.decode().splitlines():
        name, _, number = line.partition("=")
        if name == "events":  # the counts follow
            break
        if name == "start":
            events.append({})
        events[-1][name] = int(number)
    return events, received(session, capture)[1]
