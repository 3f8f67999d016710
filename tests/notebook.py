#!/usr/bin/env python3
"""Tries the kernel for Jupyter, by jupyter_client and by nbconvert.

    tests/notebook.py

It needs ipykernel, jupyter_client and nbconvert. The module loads what POINCARE_LIBRARY names, or what `make -C c` built. The
kernel is installed in a folder of this test's own. The last line is 'N passed, M failed'.
"""
import contextlib
import os
import subprocess
import sys
import tempfile
import time
from pathlib import Path

from jupyter_client.manager import start_new_kernel

TOP = Path(__file__).resolve().parent.parent
EXAMPLE = TOP / "python" / "examples" / "first-steps.ipynb"
sys.path.insert(0, str(TOP / "python"))
# Seconds within which a cell has to be answered.
LIMIT = 120


def called(*words):
    """Whether a command ends with status 0; what it tells is printed where it does not."""
    done = subprocess.run([sys.executable, *words], cwd=TOP / "python", stdout=subprocess.PIPE, stderr=subprocess.STDOUT, text=True, timeout=300)
    if done.returncode != 0:
        print(done.stdout)
    return done.returncode == 0


def outputs_of(client, code):
    """The reply to a cell, and its outputs: of each the stream or `text`, and what it tells."""
    number, outputs = client.execute(code), []
    reply = client.get_shell_msg(timeout=LIMIT)
    while reply["parent_header"]["msg_id"] != number:
        reply = client.get_shell_msg(timeout=LIMIT)
    while True:
        told = client.get_iopub_msg(timeout=LIMIT)
        if told["parent_header"].get("msg_id") != number:
            continue
        kind, content = told["msg_type"], told["content"]
        if kind == "status" and content["execution_state"] == "idle":
            return reply["content"], outputs
        if kind == "stream":
            outputs.append((content["name"], content["text"]))
        elif kind in ("display_data", "error"):
            outputs.append((kind, content["data"] if "data" in content else content["traceback"]))


def texts_of(client, code):
    """What a cell shows, as text."""
    return [told["text/plain"] if kind == "display_data" else told for kind, told in outputs_of(client, code)[1]]


def check_lines(client):
    """Each line of a cell is answered: an expression is shown, a refusal goes to standard error, and a blank line is none."""
    reply, outputs = outputs_of(client, "1/3+1/6\n\n2+\n√(8)→r\n1/0\n:pool")
    plain = [(kind, told["text/plain"] if kind == "display_data" else told) for kind, told in outputs]
    return reply["status"] == "ok" and plain[:4] == [("display_data", "1/2"), ("stderr", "! syntax\n"), ("display_data", "2×√(2)"),
                                                    ("display_data", "undef")] and plain[4][1].startswith("pool ") and len(plain) == 5


def check_latex(client):
    """What is shown or stored has LaTeX beside its text, and nothing else has."""
    _, outputs = outputs_of(client, "√(2)/2→h\nh\n1/0\n:pool")
    wanted = r"$\displaystyle \frac{\sqrt{2}}{2}$"
    return [told.get("text/latex") for _, told in outputs] == [wanted, wanted, None, None]


def check_pictures(client):
    """`:draw` shows the picture of the last answer."""
    return texts_of(client, "√(z)/2\n:draw") == ["√(z)/2", " _\n√z\n--\n2"]


def check_notes(client):
    """A name that is a function elsewhere gets a note."""
    return texts_of(client, "sin(2)") == ["2×sin", "note: sin is read as a name; there are no functions but the root\n"]


def check_help(client):
    """A question mark shows help, of a command too, and so does the help of the page."""
    whole, of_one = texts_of(client, "?"), [texts_of(client, it) for it in (":diff?", "?:diff")]
    page = client.inspect(":diff x x^2", 3, reply=True, timeout=LIMIT)["content"]
    return ("sqrt(" in whole[0] and len(whole) == 1 and of_one[0] == of_one[1] and "diff" in of_one[0][0]
            and page["found"] and "diff" in page["data"]["text/plain"])


def completed(client, code, place=None):
    told = client.complete(code, len(code) if place is None else place, reply=True, timeout=LIMIT)["content"]
    return told["matches"], told["cursor_start"], told["cursor_end"]


def check_completion(client):
    """Commands and stored names are completed, and a name that is forgotten is not."""
    outputs_of(client, "1→rate2\n2 -> rate3 \n3+→rate4\nrate3→other")
    held = [completed(client, ":d") == ([":decimal", ":diff", ":draw", ":dump"], 0, 2), completed(client, ":")[0][0] == ":after"]
    held += [completed(client, "1+1\n2×ra", 8) == (["rate2", "rate3"], 6, 8), completed(client, "sq") == (["sqrt"], 0, 2)]
    held += [completed(client, "rate2+1", 4) == (["rate2", "rate3"], 0, 4), completed(client, "1+") [0] == ["ans", *completed(client, "")[0][1:]]]
    outputs_of(client, ":forget rate2")
    held += [completed(client, "ra")[0] == ["rate3"]]
    return all(held)


def check_interrupt(manager, client):
    """Interrupt ends a cell that takes long, and the next one is answered by the same session."""
    outputs_of(client, "17→kept")
    number = client.execute("1/(√(2)+√(3)+√(5)+√(7))\n" * 200_000)
    while client.get_iopub_msg(timeout=LIMIT)["msg_type"] != "display_data":
        pass
    begun = time.monotonic()
    manager.interrupt_kernel()
    reply = client.get_shell_msg(timeout=LIMIT)
    while reply["parent_header"]["msg_id"] != number:
        reply = client.get_shell_msg(timeout=LIMIT)
    soon = time.monotonic() - begun < 30
    return soon and reply["content"]["status"] == "error" and texts_of(client, "kept+25") == ["42"]


def shown_by(notebook):
    """What the cells of a notebook show, as text, but for help."""
    import nbformat

    cells = [it for it in nbformat.read(notebook, 4).cells if it.cell_type == "code" and it.source != "?"]
    return [[it.get("text") or it["data"]["text/plain"] for it in cell.outputs] for cell in cells]


def check_example(folder):
    """The example notebook, executed by nbconvert, shows what stands in it, and as a page, too."""
    words = ["-m", "nbconvert", "--execute", str(EXAMPLE), "--output-dir", folder]
    held = [called(*words, "--to", "notebook", "--output", "again.ipynb"), called(*words, "--to", "html", "--output", "page.html")]
    shown, page = shown_by(f"{folder}/again.ipynb"), Path(folder, "page.html").read_text()
    return all(held) and shown == shown_by(EXAMPLE) and any(shown) and all(it in page for it in (r"2+\sqrt{5}", "! overflow 2^127", "a=2,b=1"))


def main():
    held = {}
    with tempfile.TemporaryDirectory() as folder:
        os.environ.update(JUPYTER_PATH=f"{folder}/share/jupyter", JUPYTER_RUNTIME_DIR=f"{folder}/run", IPYTHONDIR=f"{folder}/ipython",
                          JUPYTER_DATA_DIR=f"{folder}/data", PYDEVD_DISABLE_FILE_VALIDATION="1")
        held["install"] = called("-m", "poincare.kernel", "install", "--prefix", folder)
        manager, client = start_new_kernel(kernel_name="poincare", startup_timeout=LIMIT)
        try:
            for check in (check_lines, check_latex, check_pictures, check_notes, check_help, check_completion):
                held[check.__doc__] = check(client)
            held[check_interrupt.__doc__] = check_interrupt(manager, client)
        finally:
            client.stop_channels()
            with contextlib.suppress(RuntimeError):
                manager.shutdown_kernel()
        held[check_example.__doc__] = check_example(folder)
    for what, holds in held.items():
        if not holds:
            print(f"failed: {what}")
    failed = list(held.values()).count(False)
    print(f"{len(held) - failed} passed, {failed} failed")
    return 1 if failed else 0


if __name__ == "__main__":
    sys.exit(main())
