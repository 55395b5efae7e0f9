"""The page as it is opened in a browser, and what somebody does with it."""
import json
import tempfile

CTRL = 2


def id_of(name):
    """The element of this id, in a script."""
    return f"document.getElementById({json.dumps(name)})"


class Shown:
    """The page as it is opened in a browser."""

    def __init__(self, opened):
        self.page = opened
        self.page.wait(f"globalThis.kdf9 && !/loaded|^Running|^$/.test({id_of('state')}.textContent)")

    def js(self, expression):
        return self.page.js(expression)

    def state(self):
        """The line that is read aloud."""
        return self.js(f"{id_of('state')}.textContent")

    def idle(self):
        """Waits until nothing runs."""
        self.page.wait(f"{id_of('results')}.getAttribute('aria-busy') !== 'true' && !{id_of('run')}.disabled")

    def choose(self, name, value):
        """Chooses an option of a list."""
        self.js(f"(() => {{ const it = {id_of(name)}; it.value = {json.dumps(value)}; it.dispatchEvent(new Event('change')); }})()")

    def click(self, name):
        self.js(f"{id_of(name)}.click()")

    def view(self, name):
        """Shows the job by parts, or as its whole text."""
        self.js(f"document.querySelector('input[value={name}]').click()")

    def type_into(self, selector, text):
        """Puts a text into a control, as somebody does who writes it there."""
        self.js(f"""(() => {{ const it = document.querySelector({json.dumps(selector)}); it.focus(); it.value = {json.dumps(text)};
            it.dispatchEvent(new Event('input')); }})()""")

    def write_job(self, text):
        """Puts a text into the editor of the whole job."""
        self.view("whole")
        self.type_into("#editors > .edited textarea", text)

    def open_file(self, name, job):
        """Opens a file, as by the button of that name."""
        with tempfile.NamedTemporaryFile(prefix=name, suffix=".job") as file:
            file.write(job)
            file.flush()
            self.page.choose_file("file", file.name)
            self.page.wait(f"{id_of('state')}.textContent.includes({json.dumps(name)})")

    def run(self, command, value="0", place="0"):
        """What the Run button shows, and the status."""
        self.choose("command", command)
        for name, text in (("value", value), ("place", place)):
            self.js(f"{id_of(name)}.value = {json.dumps(text)}")
        self.click("run")
        self.idle()
        return self.js("kdf9.text()"), self.js(f"Number({id_of('state')}.dataset.status)")

    def example(self, name):
        self.choose("example", f"Examples/{name}")
