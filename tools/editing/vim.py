"""The syntax files of Vim."""
from typing import List

from editing.grammar import FILL, FLOATING, HEADING, REFERENCE, VIM, classes, constants, lines_of_job, pattern
from kdf9.tables import table

# The group in which Vim shows each class of statements; those that aren't named are orders.
LINKS = {HEADING: "Keyword", FILL: "Special", REFERENCE: "Label", FLOATING: "Error", "jumps": "Conditional", "stores": "Identifier"}
VALUES = {"number": "Number", "octal": "Number", "q-store": "Number", "characters": "String"}

BEGINS, ENDS = r"%(^|[;) \t])@1<=", r"\ze *%([;(]|$)"
HEAD = ['" Made by tools/editors from the tables.', 'if exists("b:current_syntax")', "  finish", "endif", "syn case match"]


def usercode() -> str:
    """The syntax of a deck."""
    lines = [*HEAD, 'syn match usercodeFault "\\v%(^|[; \\t])@1<=[^;() \\t*][^;()]*\\ze;"', "syn match usercodeNumber \"\\v\\d+\" contained"]
    links = [("Fault", "Error"), ("Number", "Number"), ("Comment", "Comment")]
    for name, forms in classes().items():
        contains = "" if name in (REFERENCE, FILL, FLOATING) else " contains=usercodeNumber"
        lines.append(f'syn match usercode{name.title().replace("-", "")} "\\v{BEGINS}{pattern(forms, VIM)}{ENDS}"{contains}')
        links.append((name.title().replace("-", ""), LINKS.get(name, "Function")))
    for store, value, name in constants(VIM):
        of_value = f"Value{name.title().replace('-', '')}"
        lines.append(f'syn match usercodeConstant "\\v{BEGINS}{store}\\ze{value} *%([;(]|$)" nextgroup=usercode{of_value}')
        lines.append(f'syn match usercode{of_value} "\\v{value}{ENDS}" contained')
        links.append((of_value, VALUES[name]))
    lines += ["syn region usercodeComment start=/(/ end=/)/", "syn sync minlines=200"]
    return text_of(lines, [*links, ("Constant", "Identifier")], "usercode")


def job() -> str:
    """The syntax of a job, whose decks have the other one."""
    lines = [*HEAD, "syn include @usercode syntax/usercode.vim", "unlet! b:current_syntax"]
    lines += ['syn match kdf9jobFault "\\v^.+$"', 'syn match kdf9jobNumber "\\v\\d+" contained']
    lines.append(f'syn match kdf9jobHeader "\\v%^{table("job")["header"]}$"')
    for word, line in lines_of_job(VIM).items():
        if "DECK" not in word:
            lines.append(f'syn match kdf9jobLine "\\v^{line}$" contains=kdf9jobNumber')
    lines += ['syn match kdf9jobMedium "\\v^[+].*$"', 'syn match kdf9jobMarked "\\v^[=].*$"']
    lines += ['syn region kdf9jobDeck matchgroup=kdf9jobHeader start="^DECK$" end="^ENDDECK$" keepend contains=@usercode', "syn sync fromstart"]
    links = [("Fault", "Error"), ("Number", "Number"), ("Header", "PreProc"), ("Line", "Statement"), ("Medium", "String"), ("Marked", "Special")]
    return text_of(lines, links, "kdf9job")


def text_of(lines: List[str], links: list, name: str) -> str:
    """A syntax file of these lines, and of the groups that show its own."""
    shown = [f"hi def link {name}{own} {group}" for own, group in dict(links).items()]
    return "".join(f"{line}\n" for line in [*lines, *shown, f'let b:current_syntax = "{name}"'])
