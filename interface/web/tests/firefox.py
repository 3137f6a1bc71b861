"""A Firefox without a window, spoken to by Marionette: a port of this machine, and messages LENGTH:JSON."""
import itertools
import json
import os
import socket
import time

from browser import Browser

KEYS = {"Tab": "\ue004", "Enter": "\ue007"}
CONTROL = "\ue009"
# (port 0 is any one that is free, and Firefox writes it into a file of the profile)
SETTINGS = {"marionette.port": 0, "browser.download.folderList": 2, "browser.download.alwaysOpenPanel": False,
            "browser.helperApps.neverAsk.saveToDisk": "application/octet-stream"}
PORT = "MarionetteActivePort"


class Firefox(Browser):
    """A Firefox with a new profile."""

    def __init__(self, program):
        super().__init__()
        profile = f"{self.folder.name}/profile"
        os.mkdir(profile)
        with open(f"{profile}/user.js", "w", encoding="utf-8") as file:
            for name, value in {**SETTINGS, "browser.download.dir": self.downloads}.items():
                file.write(f"user_pref({json.dumps(name)}, {json.dumps(value)});\n")
        self.start([program, "--headless", "--marionette", "--no-remote", "--profile", profile, "about:blank"])
        self.numbers, self.rest = itertools.count(1), b""
        self.to = socket.create_connection(("127.0.0.1", self._port(f"{profile}/{PORT}")))
        self._message()
        asked = {"alwaysMatch": {"timeouts": {"script": 300000}}}
        self.about = self.ask("WebDriver:NewSession", capabilities=asked)["capabilities"]

    def _port(self, name):
        until = time.monotonic() + 60
        while time.monotonic() < until and self.process.poll() is None:
            if os.path.isfile(name):
                with open(name, encoding="utf-8") as file:
                    text = file.read()
                if text:
                    return int(text)
            time.sleep(0.05)
        self.process.kill()
        raise EOFError("the browser hasn't begun")

    def close(self):
        self.ask("Marionette:Quit", flags=["eForceQuit"])
        self.to.close()
        self.ended()

    def _more(self):
        came = self.to.recv(1 << 20)
        if not came:
            raise EOFError("the browser has ended")
        self.rest += came

    def _message(self):
        while b":" not in self.rest:
            self._more()
        length, self.rest = self.rest.split(b":", 1)
        while len(self.rest) < int(length):
            self._more()
        message, self.rest = self.rest[:int(length)], self.rest[int(length):]
        return json.loads(message)

    def ask(self, command, **parameters):
        """The browser's answer to a command."""
        number = next(self.numbers)
        asked = json.dumps([0, number, command, parameters]).encode()
        self.to.sendall(b"%d:%s" % (len(asked), asked))
        _, answered, error, result = self._message()
        if error or answered != number:
            raise RuntimeError(f"{command}: {error}")
        return result

    def open(self, address):
        """Opens a page, and waits until it says that it is ready."""
        self.load(address)

    def version(self):
        return f"Firefox/{self.about['browserVersion']}"

    def go(self, address):
        self.ask("WebDriver:Navigate", url=address)

    def go_anew(self):
        self.ask("WebDriver:Refresh")

    def go_back(self):
        self.ask("WebDriver:Back")

    def value(self, expression):
        """The value of an expression in the page, which may be a promise."""
        return self.ask("WebDriver:ExecuteScript", script=f"return ({expression});", args=[])["value"]

    def _keys(self, *moves):
        """Moves keys, each up or down."""
        each = [{"type": f"key{how}", "value": key} for key, how in moves]
        self.ask("WebDriver:PerformActions", actions=[{"type": "key", "id": "keys", "actions": each}])

    def press(self, key):
        """Presses a key of KEYS."""
        self.type(KEYS[key])
        # (after the last element the focus is the browser's own, from where keys of this protocol don't bring it back)
        self.value("document.hasFocus() || window.focus()")

    def press_with_control(self, letter):
        """Presses a letter while the control key is down."""
        self._keys((CONTROL, "Down"), (letter, "Down"), (letter, "Up"), (CONTROL, "Up"))

    def type(self, text):
        """Types a text where the page's focus is."""
        self._keys(*((it, how) for it in text.replace("\n", KEYS["Enter"]) for how in ("Down", "Up")))

    def _element(self, name):
        found = self.ask("WebDriver:FindElement", using="css selector", value=f"#{name}")["value"]
        return [*found.values()][0]

    def choose(self, name, file):
        """Chooses a file in the element of this name."""
        self.ask("WebDriver:ElementSendKeys", id=self._element(name), text=file)

    def role_and_name(self, name):
        """What a screen reader has of the element of this name."""
        element = self._element(name)
        asked = [self.ask(f"WebDriver:GetComputed{what}", id=element) for what in ("Role", "Label")]
        return [it["value"] for it in asked]
