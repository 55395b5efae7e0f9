"""Emacs as a client of the language server, by Eglot and the mode of editors/emacs. Eglot is part of Emacs 29; for an older one, Debian has it as elpa-eglot."""
import json
import pathlib
import shutil
import subprocess
from typing import Iterator, Optional, Tuple

from editors_client import DECK, command_in, in_folder
from editors_inside import LEFT_OUT
from toolkit import ENVIRONMENT, ROOT

Cases = Iterator[Tuple[str, Optional[str]]]

PACKAGE = "elpa-eglot"

# Says where Emacs has Eglot.
LOCATES = '(princ (or (locate-library "eglot") ""))'

# Asks the server by the functions that the commands of Eglot call, and writes what came of it.
EGLOT = """(setq load-prefer-newer t make-backup-files nil eglot-sync-connect 60 eglot-send-changes-idle-time 0)
(load "{root}/editors/emacs/kdf9.el" nil t)
(setq kdf9-command "{command}")
(require 'eglot)
(require 'flymake)
(defvar told nil)
(defun tell (name value) (push (cons name (or value :false)) told))
(defun line (number) (save-excursion (goto-char (point-min)) (forward-line (1- number)) (buffer-substring-no-properties (point) (line-end-position))))
(defun go (number column) (goto-char (point-min)) (forward-line (1- number)) (forward-char column))
(defun wait (holds) (let ((turns 600)) (while (and (not (funcall holds)) (> turns 0)) (accept-process-output nil 0.1) (setq turns (1- turns))) (funcall holds)))
(defun ask (method params) (jsonrpc-request (eglot-current-server) method params :timeout 60))
(find-file "{file}")
(cl-letf (((symbol-function 'project-try-vc) #'ignore))
  (apply #'eglot (eglot--guess-contact)))
(tell 'attached (and (wait #'eglot-current-server) t))
(go 4 4)
(tell 'hover (plist-get (plist-get (ask :textDocument/hover (eglot--TextDocumentPositionParams)) :contents) :value))
(tell 'moved (1+ (plist-get (plist-get (plist-get (let ((found (ask :textDocument/definition (eglot--TextDocumentPositionParams)))) (if (vectorp found) (aref found 0) found)) :range) :start) :line)))
(eglot-rename "5")
(tell 'part (line 7))
(eglot-format-buffer)
(tell 'formatted (line 4))
(tell 'symbols (length (ask :textDocument/documentSymbol (list :textDocument (eglot--TextDocumentIdentifier)))))
(go 5 0)
(delete-region (point) (line-end-position))
(insert "  *; Y0; J1=Z; ZEROO; OUT;")
(eglot--signal-textDocument/didChange)
(flymake-mode 1)
(tell 'faulty (wait (lambda () (flymake-start) (flymake-diagnostics))))
(let ((fault (car (flymake-diagnostics))))
  (tell 'faulty (and fault (flymake-diagnostic-text fault)))
  (tell 'place (and fault (save-excursion (goto-char (flymake-diagnostic-beg fault)) (vector (line-number-at-pos) (current-column))))))
(let ((action (aref (ask :textDocument/codeAction (list :textDocument (eglot--TextDocumentIdentifier) :range '(:start (:line 4 :character 0) :end (:line 4 :character 20)) :context '(:diagnostics []))) 0)))
  (tell 'action (plist-get action :title))
  (eglot--apply-workspace-edit (plist-get action :edit)))
(tell 'text (line 5))
(with-temp-file "{told}" (insert (json-serialize told)))
"""


def emacs(words: list, folder: str) -> subprocess.CompletedProcess:
    """A run of Emacs without a window."""
    how = {"cwd": folder, "env": {**ENVIRONMENT, "HOME": folder, "TERM": "dumb"}, "capture_output": True, "text": True, "timeout": 600, "check": False}
    return subprocess.run(["emacs", "-Q", "--batch", *words], **how)


def folder_of_eglot(folder: str) -> Optional[str]:
    """Where Eglot is, which apt fetches if Emacs has none; or None."""
    found = emacs(["--eval", LOCATES], folder).stdout
    if found:
        return str(pathlib.Path(found).parent)
    if not shutil.which("apt-get") or not shutil.which("dpkg-deb"):
        return None
    subprocess.run(["apt-get", "-q", "download", PACKAGE], cwd=folder, capture_output=True, timeout=600, check=False)
    for deb in pathlib.Path(folder).glob(f"{PACKAGE}_*.deb"):
        subprocess.run(["dpkg-deb", "-x", str(deb), "eglot"], cwd=folder, check=True)
        return str(next(pathlib.Path(folder, "eglot").rglob("eglot.el")).parent)
    return None


def emacs_is_a_client() -> Cases:
    """Eglot's own client, with the mode of editors/emacs: hover, definition, rename, form, outline, a fault and its fix."""
    if "emacs" in LEFT_OUT:
        return
    with in_folder() as folder:
        place = folder_of_eglot(folder)
        if place is None:
            print("editors: Emacs has no Eglot here, and apt fetches none, so its client isn't tried")
            return
        file, told, script = (pathlib.Path(folder, name) for name in ("a.usercode", "told.json", "script.el"))
        file.write_text(DECK, encoding="ascii")
        script.write_text(EGLOT.format(root=ROOT, command=command_in(folder), file=file, told=told), encoding="utf-8")
        done = emacs(["-L", place, "-l", str(script)], folder)
        if not told.is_file():
            yield "Emacs as a client", f"{done}"
            return
        found = json.loads(told.read_text(encoding="utf-8"))
    due = {
        "attached": True, "moved": 7, "part": "5; V0; =V1P0; EXIT 1;", "formatted": "1; J5P7C2NZ; JSP7; SHA-3; =YA2;", "symbols": 4, "place": [5, 15], "action": "Write ZERO",
        "text": "  *; Y0; J1=Z; ZERO; OUT;",
    }
    for name, value in due.items():
        yield f"Emacs: {name}", None if found[name] == value else f"{found[name]!r} in place of {value!r}"
    yield "Emacs: hover", None if "reference 1 of part 7" in found["hover"] else f"{found['hover']}"
    yield "Emacs: the fault", None if "UnknownOrder" in str(found["faulty"]) or "isn't a Usercode statement" in str(found["faulty"]) else f"{found['faulty']}"


SUITES = (emacs_is_a_client,)
