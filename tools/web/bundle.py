"""The page as one file: the module, the script with its tables, the style, and the texts that the script shows."""
import base64
import gzip
import json
import re

from web.documents import failures, help_of_statements, jobs_of_examples, jobs_of_first_hour, read

# The main script, which imports the others, and that of a page with a course, which imports it.
MAIN, WITH_COURSE = "page", "course"
IMPORT = re.compile(r'^import (\{[^}]*\}) from "\./(\w+)\.js";\n', re.MULTILINE)
TABLE = re.compile(r"/\* (tables/\w+\.json) \*/ null")
EXPORT = re.compile(r"^export ((?:async )?(?:function|class|const) )(\w+)", re.MULTILINE)

# Lines that are comments. The page goes without them, which makes it smaller by a twelfth.
COMMENTS = re.compile(r"^[ \t]*(?://[^\n]*|/\*\*(?:[^*]|\*(?!/))*\*/)\n", re.MULTILINE)


def in_page(value):
    """A value as JSON that is safe within a page."""
    return json.dumps(value, ensure_ascii=False, separators=(",", ":")).replace("</", "<\\/")


def script(name=MAIN):
    """The script of this name and those that it imports, as one script. Each becomes a function that is called once and returns its exports."""
    done, exported = {}, {}

    def visit(each):
        if each in done:
            return
        done[each] = None
        text = TABLE.sub(lambda mark: in_page(json.loads(read(mark[1]))), COMMENTS.sub("", read(f"web/{each}.js")))
        for names, used in IMPORT.findall(text):
            visit(used)
            missing = set(re.findall(r"\w+", names)) - set(exported[used])
            if missing:
                raise ValueError(f"web/{each}.js imports {', '.join(missing)}, which web/{used}.js doesn't export")
        del done[each]
        exported[each] = [found for _, found in EXPORT.findall(text)]
        names = ", ".join(exported[each])
        body = EXPORT.sub(r"\1\2", IMPORT.sub(r"const \1 = \2_js;\n", text))
        done[each] = f"const {each}_js = (() => {{\n{body}return {{ {names} }};\n}})();\n"

    visit(name)
    return "\n".join(done.values())


def texts(start):
    """What the script shows, as JSON. `start` is the job that runs when the page opens, or None."""
    jobs = dict([*jobs_of_first_hour(), *jobs_of_examples()])
    return json_of({"jobs": jobs, "failures": failures(), "start": start})


def json_of(value):
    """The bytes of a value as JSON."""
    return json.dumps(value, separators=(",", ":")).encode("ascii")


def packed(data):
    """Bytes as the page has them: compressed, in base64."""
    return base64.b64encode(gzip.compress(data, 9, mtime=0)).decode("ascii")


def page(module, start=None, course=None):
    """The page, made from the bytes of the module. If there is a job, it runs when the page opens; if there is a course, as the page has it, its exercises are there too."""
    parts = {
        "STYLE": read("web/page.css"), "WORKER": script("worker"), "TEXTS": packed(texts(start)), "MODULE": packed(module),
        "HELP": packed(json_of(help_of_statements())), "COURSE": packed(json_of(course)) if course else "", "SCRIPT": script(WITH_COURSE if course else MAIN),
    }
    return re.sub(r"/\* ([A-Z]+) \*/", lambda mark: parts[mark[1]], read("web/page.html"))
