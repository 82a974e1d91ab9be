"""A Firefox for the tests of the page, driven by the protocol that is built into it (Marionette), so that no driver is needed."""
import json
import os
import shutil
import socket
import subprocess
import time

from selenium.common.exceptions import WebDriverException
from selenium.webdriver.remote.command import Command
from selenium.webdriver.remote.webdriver import WebDriver

NAMES = ("firefox", "firefox-esr")
# Selenium's commands under the names that Firefox has for them.
CALLS = {Command.NEW_SESSION: "NewSession", Command.GET: "Navigate", Command.REFRESH: "Refresh", Command.SET_TIMEOUTS: "SetTimeouts",
         Command.W3C_EXECUTE_SCRIPT: "ExecuteScript", Command.W3C_EXECUTE_SCRIPT_ASYNC: "ExecuteAsyncScript",
         Command.FIND_ELEMENT: "FindElement", Command.FIND_ELEMENTS: "FindElements", Command.CLICK_ELEMENT: "ElementClick",
         Command.FIND_CHILD_ELEMENT: "FindElement", Command.FIND_CHILD_ELEMENTS: "FindElements",
         Command.SEND_KEYS_TO_ELEMENT: "ElementSendKeys", Command.GET_ELEMENT_PROPERTY: "GetElementProperty", Command.GET_ELEMENT_ATTRIBUTE: "GetElementAttribute",
         Command.GET_ELEMENT_RECT: "GetElementRect", Command.GET_ELEMENT_TEXT: "GetElementText", Command.GET_ELEMENT_TAG_NAME: "GetElementTagName",
         Command.IS_ELEMENT_SELECTED: "IsElementSelected", Command.IS_ELEMENT_ENABLED: "IsElementEnabled",
         Command.W3C_ACTIONS: "PerformActions", Command.SCREENSHOT: "TakeScreenshot", Command.PRINT_PAGE: "Print",
         Command.SET_WINDOW_RECT: "SetWindowRect", Command.QUIT: "DeleteSession"}
SETTINGS = """
user_pref("app.update.enabled", false);
user_pref("browser.download.alwaysOpenPanel", false);
user_pref("browser.download.folderList", 2);
user_pref("browser.download.dir", %s);
user_pref("browser.shell.checkDefaultBrowser", false);
user_pref("browser.startup.page", 0);
user_pref("datareporting.policy.dataSubmissionEnabled", false);
user_pref("toolkit.telemetry.enabled", false);
user_pref("marionette.port", %d);
"""
PATIENCE = 60  # seconds in which it starts


def executable():
    return next((path for path in map(shutil.which, NAMES) if path), None)


def free_port():
    with socket.socket() as one:
        one.bind(("127.0.0.1", 0))
        return one.getsockname()[1]


class Wire:
    """A connection to a Firefox: messages are the length of a list in JSON, a colon and the list."""

    keep_alive = True

    def __init__(self, port, process):
        end = time.monotonic() + PATIENCE
        while True:
            try:
                self.socket = socket.create_connection(("127.0.0.1", port))
                break
            except OSError:
                if time.monotonic() > end or process.poll() is not None:
                    raise
                time.sleep(0.1)
        self.file = self.socket.makefile("rb")
        self.number = 0
        self.take()

    def take(self):
        length = b""
        while not length.endswith(b":"):
            length += self.file.read(1) or self.end()
        return json.loads(self.file.read(int(length[:-1])))

    def end(self):
        raise WebDriverException("Firefox has gone")

    def ask(self, name, words):
        self.number += 1
        text = json.dumps([0, self.number, name, words]).encode()
        self.socket.sendall(b"%d:%s" % (len(text), text))
        _, _, problem, answer = self.take()
        if problem:
            raise WebDriverException(f"{problem['error']}: {problem['message']}")
        return answer["value"] if isinstance(answer, dict) and set(answer) == {"value"} else answer

    def execute(self, command, params):
        words = {} if command == Command.NEW_SESSION else {key: value for key, value in params.items() if key != "sessionId"}
        if command in (Command.FIND_CHILD_ELEMENT, Command.FIND_CHILD_ELEMENTS):
            words["element"] = words.pop("id")
        answer = self.ask(f"WebDriver:{CALLS[command]}", words)
        return answer if command == Command.NEW_SESSION else {"value": answer}

    def close(self):
        self.socket.close()


class Firefox(WebDriver):
    def __init__(self, folder, downloads):
        profile = os.path.join(folder, "profile")
        os.mkdir(profile)
        port = free_port()
        with open(os.path.join(profile, "user.js"), "w", encoding="utf-8") as file:
            file.write(SETTINGS % (json.dumps(downloads), port))
        words = [executable(), "--headless", "--no-remote", "--marionette", "--remote-allow-system-access", "--profile", profile, "about:blank"]
        self.process = subprocess.Popen(words, stdout=subprocess.DEVNULL, stderr=subprocess.DEVNULL)
        self.wire = Wire(port, self.process)
        super().__init__(command_executor=self.wire)
        self._is_remote = False  # files are named by their paths here

    def chrome(self, script, *words):
        """Runs a script in the browser's own window."""
        self.wire.ask("Marionette:SetContext", {"value": "chrome"})
        try:
            return self.wire.ask("WebDriver:ExecuteScript", {"script": script, "args": list(words)})
        finally:
            self.wire.ask("Marionette:SetContext", {"value": "content"})

    def computed(self, what, element):
        """The role or the label of an element, as a screen reader is given them."""
        return self.wire.ask(f"WebDriver:GetComputed{what}", {"id": element.id})

    def quit(self):
        self.wire.close()
        self.process.terminate()
        self.process.wait()
