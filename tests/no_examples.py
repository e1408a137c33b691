"""The examples whose answer is no: each row of the tables of examples/no/README.md, run in that folder."""
import re
import subprocess

from commands import OF_LINES
from spawned import SECONDS

ROW = re.compile(r"(?m)^\| `igesolid (.*?)` \| *(.*?) *\| (\d) \| .+ \|$")
# The definitions whose words are printed: of a bad file, of a solid, of a certificate and of an extraction.
PRINTED = re.compile(r'(?m)^(?:reason_word|rule_name|illegal_word|extract_word) .*= codes "(.*)"$')


def printed_words(top):
    """Each word that can be printed for what is wrong."""
    return {word for path in top.glob("crates/*/specs/*.antt") for word in PRINTED.findall(path.read_text())}


def checks(top, programs):
    folder = top / "examples" / "no"
    rows = ROW.findall((folder / "README.md").read_text())
    for words, answer, status in rows:
        wanted = "".join(f"{line}\n" for line in re.findall(r"`(.*?)`", answer))
        program = programs.repair if words.split()[0] in OF_LINES else programs.igesolid
        done = subprocess.run([program, *words.split()], cwd=folder, capture_output=True, timeout=SECONDS)
        yield f"examples/no: {words}", (done.returncode, done.stdout.decode(), done.stderr) == (int(status), wanted, b"")
    run = {word for words, _, _ in rows for word in words.split()}
    for path in sorted(folder.iterdir()):
        yield f"examples/no: a row of {path.name}", path.name == "README.md" or path.name in run
    answered = {word for _, answer, _ in rows for word in re.findall(r"[\w-]+", answer)}
    words = printed_words(top)
    yield "examples/no: words that can be printed", len(words) > 0
    for word in sorted(words):
        yield f"examples/no: a row that answers {word}", word in answered
