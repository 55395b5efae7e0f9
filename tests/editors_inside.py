"""The syntax files and modes in the editors themselves: what each shows of every statement of the examples, and how it goes to a fault."""
import json
import pathlib
import shutil
import subprocess
from typing import Dict, Iterator, List, Optional, Tuple

from editors_client import DECK, command_in, files, in_folder, placed
from toolkit import ENVIRONMENT, ROOT, job_of_deck

from editing.emacs import FACES  # noqa: E402
from editing.texts import Text  # noqa: E402

Cases = Iterator[Tuple[str, Optional[str]]]

EDITORS = {"vim": ["vim", "-Nu", "NONE", "-es", "-i", "NONE", "-n"], "nvim": ["nvim", "--headless", "-u", "NONE", "-i", "NONE", "-n"]}
LEFT_OUT = [name for name in (*EDITORS, "emacs") if not shutil.which(name)]

# A faulty deck and a job with a fault and with a program that fails: the name of each, its text, and the line and the column to which an editor has to go.
FAULTY = [
    ("faulty.usercode", DECK.replace("JSP7", "JSP8"), 4, 14), ("faulty.job", job_of_deck("PROGRAM;\n  ZERO; ERAZE;\nFINISH;"), 6, 9),
    ("failing.job", job_of_deck("PROGRAM;\n  ZERO;\n  +;\nFINISH;"), 7, 3),
]

VIM = """set rtp^={root}/editors/vim
let g:kdf9 = "{command}"
let g:kdf9_lsp = v:false
filetype plugin on
syntax on
let s:told = []
for [s:file, s:places] in json_decode(join(readfile("{asked}"), ""))
  exe "edit" fnameescape(s:file)
  let s:names = map(copy(s:places), {{_, it -> synIDattr(synID(it[0], it[1], 1), "name")}})
  call add(s:told, [s:file, &filetype, s:names])
endfor
for s:file in {faulty}
  exe "edit" s:file
  silent make!
  cc 1
  call add(s:told, [s:file, expand("%:t"), [line("."), col("."), len(filter(getqflist(), {{_, it -> it.valid}}))]])
endfor
call writefile([json_encode(s:told)], "{told}")
qall!
"""

EMACS = """(setq load-prefer-newer t make-backup-files nil compilation-ask-about-save nil)
(load "{root}/editors/emacs/kdf9.el" nil t)
(setq kdf9-command "{command}")
(defun place (line column) (goto-char (point-min)) (forward-line (1- line)) (forward-char (1- column)) (point))
(let ((told nil))
  (dolist (asked (with-temp-buffer (insert-file-contents "{asked}") (json-parse-buffer :array-type 'list)))
    (with-current-buffer (find-file-noselect (car asked))
      (font-lock-ensure)
      (push (vector (car asked) (symbol-name major-mode)
                    (vconcat (mapcar (lambda (it) (format "%s" (get-text-property (place (car it) (cadr it)) 'face))) (cadr asked))))
            told)))
  (dolist (file '({faulty}))
    (with-current-buffer (find-file-noselect file)
      (let ((buffer (compile compile-command)))
        (while (process-live-p (get-buffer-process buffer)) (accept-process-output nil 0.05))
        (with-current-buffer buffer (goto-char (point-min)) (compilation-next-error 1) (compile-goto-error))
        (push (vector file (buffer-name (window-buffer)) (with-current-buffer (window-buffer) (vector (line-number-at-pos) (1+ (current-column)) 1))) told))))
  (with-temp-file "{told}" (insert (json-serialize (vconcat (nreverse told))))))
"""


def shown_in_vim(kind: str) -> str:
    """The group in which Vim shows a statement of a class."""
    return f"usercode{kind.title().replace('-', '')}"


def face_of(kind: str) -> str:
    """The face in which Emacs shows the beginning of a statement of a class."""
    return f"font-lock-{FACES.get(kind, 'function-name')}-face"


def places(text: Text) -> List[List[int]]:
    """The line and the column of each statement, from 1."""
    return [[text.line_of(at) + 1, at - text.starts[text.line_of(at)] + 1] for at, _ in placed(text)]


def told_by(editor: str, folder: str, texts: Dict[str, Text]) -> Tuple[str, list]:
    """What an editor wrote that has seen these texts, and then what it told."""
    asked, told, script = (pathlib.Path(folder, name) for name in ("asked.json", "told.json", "script.vim" if editor != "emacs" else "script.el"))
    asked.write_text(json.dumps([[name, places(text)] for name, text in texts.items()]), encoding="ascii")
    names = [name for name, *_ in FAULTY]
    parts = {"root": ROOT, "command": command_in(folder), "asked": asked, "told": told}
    if editor == "emacs":
        script.write_text(EMACS.format(**parts, faulty=" ".join(json.dumps(name) for name in names)), encoding="utf-8")
        words = ["emacs", "-Q", "--batch", "-l", str(script)]
    else:
        script.write_text(VIM.format(**parts, faulty=json.dumps(names)), encoding="utf-8")
        words = [*EDITORS[editor], "-S", str(script)]
    done = subprocess.run(["nice", *words], cwd=folder, env={**ENVIRONMENT, "HOME": folder, "TERM": "dumb"}, capture_output=True, text=True, timeout=100, check=False)
    return done.stdout + done.stderr, json.loads(told.read_text(encoding="utf-8")) if told.is_file() else []


def editors_show_statements_and_faults() -> Cases:
    """Each editor shows every statement in the group or face of its class, knows jobs and decks, and goes to the fault."""
    with in_folder() as folder:
        texts = files(folder)
        for name, text, *_ in FAULTY:
            pathlib.Path(folder, name).write_text(text, encoding="ascii")
        for editor in (*EDITORS, "emacs"):
            if editor not in LEFT_OUT:
                yield from cases_of(editor, folder, texts)


def cases_of(editor: str, folder: str, texts: Dict[str, Text]) -> Cases:
    """What an editor showed that it had to show."""
    wrote, told = told_by(editor, folder, texts)
    yield f"{editor} comes to its end", None if len(told) == len(texts) + len(FAULTY) else wrote[-900:]
    kinds = ("usercode-mode", "kdf9-job-mode") if editor == "emacs" else ("usercode", "kdf9job")
    show = face_of if editor == "emacs" else shown_in_vim
    for name, kind, found in told[:len(texts)]:
        due = [show(each) for _, each in placed(texts[name])]
        if editor == "emacs":
            due = [face if each != "constant" else other for (_, each), face, other in zip(placed(texts[name]), due, found)]
        wrong = [(at, one, other) for (at, _), one, other in zip(placed(texts[name]), found, due) if one != other]
        good = kind == kinds[texts[name].is_job] and not wrong
        yield f"{editor} shows {name.rsplit('/', maxsplit=1)[-1]}", None if good else f"{kind} {wrong[:3]}"
    for (name, _, line, column), (_, shown, place) in zip(FAULTY, told[len(texts):]):
        yield f"{editor} goes to the fault of {name}", None if (shown, place[:2]) == (name, [line, column]) and place[2] == 1 else f"{shown} {place} in place of {line}:{column}"
    pathlib.Path(folder, "told.json").unlink(missing_ok=True)


SUITES = (editors_show_statements_and_faults,)
