"""A Chromium without a window, spoken to by its debugging pipe (Chrome DevTools Protocol)."""
import itertools
import json
import os

from browser import Browser

# (the root of a container has no sandbox of its own)
WORDS = ("--headless", "--disable-gpu", "--no-first-run", "--remote-debugging-pipe", "--disable-background-networking",
         "--no-sandbox")
# of each key its number and what it types
KEYS = {"Tab": (9, ""), "Enter": (13, "\r")}
# (keys that come by this way do nothing of the browser's by themselves)
COMMANDS = {"c": "copy", "v": "paste", "z": "undo"}
CONTROL = 2


class Chromium(Browser):
    """A Chromium, whose events are kept in the order in which they come."""

    def __init__(self, program):
        super().__init__()
        theirs_in, self.to = os.pipe()
        self.come_from, theirs_out = os.pipe()
        # (the pipe's ends are 3 and 4 in the browser)
        shell = f'exec "$@" 3<&{theirs_in} 4>&{theirs_out}'
        self.start(["sh", "-c", shell, "sh", program, *WORDS, f"--user-data-dir={self.folder.name}/profile",
                    "about:blank"], pass_fds=(theirs_in, theirs_out))
        os.close(theirs_in)
        os.close(theirs_out)
        self.numbers, self.events, self.rest, self.session = itertools.count(1), [], b"", None

    def close(self):
        os.close(self.to)
        self.ended()
        os.close(self.come_from)

    def _message(self):
        while b"\0" not in self.rest:
            came = os.read(self.come_from, 1 << 20)
            if not came:
                raise EOFError("the browser has ended")
            self.rest += came
        message, self.rest = self.rest.split(b"\0", 1)
        return json.loads(message)

    def ask(self, method, **parameters):
        """The browser's answer to a method."""
        number = next(self.numbers)
        asked = {"id": number, "method": method, "params": parameters}
        if self.session:
            asked["sessionId"] = self.session
        os.write(self.to, json.dumps(asked).encode() + b"\0")
        while True:
            message = self._message()
            if message.get("id") == number:
                if "error" in message:
                    raise RuntimeError(f"{method}: {message['error']}")
                return message["result"]
            self.events.append(message)

    def open(self, address):
        """Opens a page, and waits until it says that it is ready."""
        target = self.ask("Target.createTarget", url="about:blank")["targetId"]
        self.session = self.ask("Target.attachToTarget", targetId=target, flatten=True)["sessionId"]
        for domain in ("Page", "Runtime", "Network", "Log", "DOM", "Accessibility"):
            self.ask(f"{domain}.enable")
        self.ask("Page.setDownloadBehavior", behavior="allow", downloadPath=self.downloads)
        self.load(address)

    def version(self):
        return self.ask("Browser.getVersion")["product"]

    def go(self, address):
        self.ask("Page.navigate", url=address)

    def go_anew(self):
        self.ask("Page.reload")

    def go_back(self):
        entries = self.ask("Page.getNavigationHistory")
        before = entries["entries"][entries["currentIndex"] - 1]
        self.ask("Page.navigateToHistoryEntry", entryId=before["id"])

    def value(self, expression):
        """The value of an expression in the page, which may be a promise."""
        answer = self.ask("Runtime.evaluate", expression=expression, returnByValue=True, awaitPromise=True)
        if "exceptionDetails" in answer:
            raise RuntimeError(f"{expression[:200]}: {answer['exceptionDetails']}")
        return answer["result"].get("value")

    def press(self, key):
        """Presses a key of KEYS."""
        code, text = KEYS[key]
        same = {"key": key, "code": key, "windowsVirtualKeyCode": code}
        self.ask("Input.dispatchKeyEvent", type="keyDown" if text else "rawKeyDown", text=text, **same)
        self.ask("Input.dispatchKeyEvent", type="keyUp", **same)

    def press_with_control(self, letter):
        """Presses a letter of COMMANDS while the control key is down."""
        same = {"key": letter, "code": f"Key{letter.upper()}", "windowsVirtualKeyCode": ord(letter.upper())}
        self.ask("Input.dispatchKeyEvent", type="rawKeyDown", modifiers=CONTROL, commands=[COMMANDS[letter]], **same)
        self.ask("Input.dispatchKeyEvent", type="keyUp", modifiers=CONTROL, **same)

    def type(self, text):
        """Types a text where the page's focus is."""
        self.ask("Input.insertText", text=text)

    def choose(self, name, file):
        """Chooses a file in the element of this name."""
        document = self.ask("DOM.getDocument")["root"]["nodeId"]
        chooser = self.ask("DOM.querySelector", nodeId=document, selector=f"#{name}")["nodeId"]
        self.ask("DOM.setFileInputFiles", nodeId=chooser, files=[file])

    def role_and_name(self, name):
        """What a screen reader has of the element of this name."""
        found = self.ask("Runtime.evaluate", expression=f"document.getElementById({json.dumps(name)})")["result"]
        told = self.ask("Accessibility.getPartialAXTree", objectId=found["objectId"], fetchRelatives=False)["nodes"][0]
        return [told[what]["value"] for what in ("role", "name")]

    def drop(self, *files):
        """Drops files from outside the browser."""
        data = {"items": [], "files": files, "dragOperationsMask": 1}
        for kind in ("dragEnter", "dragOver", "drop"):
            self.ask("Input.dispatchDragEvent", type=kind, x=300, y=300, data=data)
