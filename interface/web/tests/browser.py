"""What the tests ask of a browser without a window, whichever it is."""
import json
import os
import subprocess
import tempfile
import time

IS_READY = "document.documentElement?.dataset.ready === 'yes'"


class Browser:
    """A browser with one page, a folder of its own, and what is saved below it in `downloads`."""

    def __init__(self):
        self.folder = tempfile.TemporaryDirectory()
        self.downloads = f"{self.folder.name}/downloads"
        os.mkdir(self.downloads)

    def start(self, words, **how):
        """Starts the browser, which has nothing to read and says nothing."""
        self.process = subprocess.Popen(words, stdin=subprocess.DEVNULL, stdout=subprocess.DEVNULL,
                                        stderr=subprocess.DEVNULL, **how)

    def ended(self):
        """Waits until the browser has ended, which has been told to."""
        try:
            self.process.wait(10)
        except subprocess.TimeoutExpired:
            self.process.kill()
            self.process.wait()
        self.folder.cleanup()

    def load(self, address):
        """Loads a page, and waits until it says that it is ready."""
        self.go(address)
        self.wait(IS_READY)

    def reload(self):
        """Loads the page anew, and waits until it says that it is ready."""
        self.value("document.documentElement.dataset.ready = 'before'")
        self.go_anew()
        self.wait(IS_READY)

    def come_back(self):
        """Goes to another page and back, and waits until this one says that it is ready."""
        self.go("about:blank")
        self.wait("location.href === 'about:blank'")
        self.go_back()
        self.wait(IS_READY)

    def wait(self, expression, seconds=20):
        """Waits until the expression holds in the page."""
        until = time.monotonic() + seconds
        while not self.value(expression):
            if time.monotonic() > until:
                raise TimeoutError(expression)
            time.sleep(0.02)

    def paste(self, text, name):
        """Copies a text, which isn't empty, and pastes it into the element of this name, both by the keyboard."""
        self.value(f"""(() => {{
            const copied = document.createElement("textarea");
            copied.id = "copied";
            copied.value = {json.dumps(text)};
            document.body.append(copied);
            copied.select();
        }})()""")
        self.press_with_control("c")
        self.value(f"""(() => {{
            window.isPasted = false;
            document.addEventListener("paste", () => {{ window.isPasted = true; }}, {{once: true}});
            document.getElementById("copied").remove();
            document.getElementById({json.dumps(name)}).focus();
        }})()""")
        self.press_with_control("v")
        self.wait("isPasted")
