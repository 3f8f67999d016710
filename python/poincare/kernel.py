"""A kernel for Jupyter: each line of a cell is answered.

    python -m poincare.kernel install [--user | --sys-prefix | --prefix P]
    python -m poincare.kernel remove

It needs `ipykernel`. An answer is shown as text and, where that finds room, as LaTeX; `:draw` shows its picture. A
question mark shows what is told of lines and commands, and `?:diff` or `:diff?` what is told of one. The names that are
stored and the commands are completed. Interrupt stops the line that runs, and the lines after it are not answered.
"""

import argparse
import json
import pathlib
import re
import sys
import tempfile
from typing import Any

from ipykernel.kernelapp import IPKernelApp
from ipykernel.kernelbase import Kernel
from jupyter_client.kernelspec import KernelSpecManager

from . import Answer, Kind, PoolFull, Session, __version__
from ._guide import COMMANDS, help_text, note_on

NAME = "poincare"
HERE = pathlib.Path(__file__).resolve().parent
STORES = re.compile(r"(?:→|->)[ \t]*([A-Za-z][A-Za-z0-9]*)[ \t]*$")
FORGETS = re.compile(r"[ \t]*:forget[ \t]+([A-Za-z][A-Za-z0-9]*)[ \t]*$")
WORD = re.compile(r":?[A-Za-z][A-Za-z0-9]*$|:$")


class PoincareKernel(Kernel):
    """A session of the library, asked by cells."""

    implementation = NAME
    implementation_version = __version__
    banner = "poincare: exact answers, line by line; ? shows help"
    language_info = {"name": NAME, "version": __version__, "mimetype": "text/plain", "file_extension": ".txt", "pygments_lexer": "text"}

    def __init__(self, **words: Any) -> None:
        super().__init__(**words)
        self._session = Session()
        self._names: set[str] = set()

    def do_execute(self, code: str, silent: bool, *_: Any, **__: Any) -> dict[str, Any]:
        try:
            for line in code.splitlines():
                self._answer(line, silent)
        except KeyboardInterrupt:
            return self._interrupted(silent)
        return {"status": "ok", "execution_count": self.execution_count, "payload": [], "user_expressions": {}}

    def do_complete(self, code: str, cursor_pos: int) -> dict[str, Any]:
        found = WORD.search(code[:cursor_pos].rpartition("\n")[2])
        word = found[0] if found else ""
        known = COMMANDS if word.startswith(":") else sorted({*self._names, "ans", "sqrt", "undef"})
        matches = [it for it in known if it.startswith(word)]
        start = cursor_pos - len(word)
        return {"status": "ok", "matches": matches, "cursor_start": start, "cursor_end": cursor_pos, "metadata": {}}

    def do_inspect(self, code: str, cursor_pos: int, *_: Any, **__: Any) -> dict[str, Any]:
        line = code[:cursor_pos].rpartition("\n")[2] + code[cursor_pos:].partition("\n")[0]
        command = re.match(r"[ \t]*:([a-z]+)", line)
        text = help_text(self._session, command[1] if command else "")
        return {"status": "ok", "found": True, "data": {"text/plain": text}, "metadata": {}}

    def do_is_complete(self, code: str) -> dict[str, str]:
        return {"status": "complete"}

    def do_shutdown(self, restart: bool) -> dict[str, Any]:
        self._session.close()
        return {"status": "ok", "restart": restart}

    def _answer(self, line: str, silent: bool) -> None:
        """Answers a line, and shows what comes of it."""
        if "?" in (line.strip()[:1], line.strip()[-1:]):
            self._show(silent, help_text(self._session, line.strip("?: \t")))
            return
        answer = self._session.line(line)
        self._note_names(line, answer)
        if answer.kind is Kind.DRAW:
            self._show(silent, self._picture())
        elif answer.kind in (Kind.SHOWN, Kind.STORED):
            self._show(silent, answer.text, self._latex())
        elif answer.kind is Kind.REFUSED:
            self._write(silent, "stderr", f"{answer.text}\n")
        elif answer.kind is not Kind.BLANK:
            self._show(silent, answer.text)
        self._write(silent, "stdout", note_on(line, answer))

    def _picture(self) -> str:
        try:
            return self._session.picture()
        except PoolFull as full:
            return str(full)

    def _latex(self) -> str:
        """The last answer as LaTeX, or nothing where that finds no room."""
        try:
            return self._session.latex()
        except PoolFull:
            return ""

    def _note_names(self, line: str, answer: Answer) -> None:
        """Keeps which names are stored, for completion."""
        stores, forgets = STORES.search(line), FORGETS.match(line)
        if answer.kind is Kind.STORED and stores:
            self._names.add(stores[1])
        elif answer.kind is Kind.REPORT and forgets:
            self._names.discard(forgets[1])

    def _show(self, silent: bool, text: str, latex: str = "") -> None:
        data = {"text/plain": text.rstrip("\n")}
        if latex:
            data["text/latex"] = rf"$\displaystyle {latex}$"
        if not silent:
            self.send_response(self.iopub_socket, "display_data", {"data": data, "metadata": {}})

    def _write(self, silent: bool, stream: str, text: str) -> None:
        if text and not silent:
            self.send_response(self.iopub_socket, "stream", {"name": stream, "text": text})

    def _interrupted(self, silent: bool) -> dict[str, Any]:
        """What is answered for a cell whose line was stopped."""
        error = {"ename": "Interrupted", "evalue": "the line was stopped", "traceback": ["! interrupted"]}
        if not silent:
            self.send_response(self.iopub_socket, "error", error)
        return {"status": "error", "execution_count": self.execution_count, **error}


def install(user: bool, prefix: str | None) -> None:
    """Makes the kernel known to Jupyter. A checkout that is not installed as a package says where it is."""
    spec: dict[str, Any] = {"argv": [sys.executable, "-m", "poincare.kernel", "-f", "{connection_file}"]}
    spec.update(display_name="Poincaré", language=NAME)
    if not {"site-packages", "dist-packages"} & set(HERE.parts):
        spec["env"] = {"PYTHONPATH": str(HERE.parent)}
    with tempfile.TemporaryDirectory() as folder:
        (pathlib.Path(folder) / "kernel.json").write_text(json.dumps(spec, indent=1))
        place = KernelSpecManager().install_kernel_spec(folder, NAME, user=user, prefix=prefix)
    print(f"the kernel is installed: {place}")


def main() -> None:
    if sys.argv[1:2] not in (["install"], ["remove"]):
        IPKernelApp.launch_instance(kernel_class=PoincareKernel)
        return
    words = argparse.ArgumentParser(prog="python -m poincare.kernel", description="Makes the kernel known to Jupyter.")
    words.add_argument("command", choices=["install", "remove"])
    places = words.add_mutually_exclusive_group()
    places.add_argument("--user", action="store_true", help="for this user alone")
    places.add_argument("--sys-prefix", action="store_const", const=sys.prefix, dest="prefix", help="in this environment")
    places.add_argument("--prefix", help="below this folder")
    given = words.parse_args()
    if given.command == "remove":
        KernelSpecManager().remove_kernel_spec(NAME)
    else:
        install(given.user, given.prefix)


if __name__ == "__main__":
    main()
