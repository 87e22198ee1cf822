"""A headless Chromium of Debian's packages, driven over WebDriver's HTTP protocol."""
import base64
import json
import os
import pathlib
import re
import shutil
import subprocess
import sys
import urllib.error
import urllib.request

PROGRAMS = {"chromium": "chromium", "chromedriver": "chromium-driver"}  # each with its package
FONTS = "fonts-dejavu-core"
ARGUMENTS = ["--headless=new", "--no-sandbox", "--disable-dev-shm-usage", "--disable-gpu", "--force-color-profile=srgb"]
ELEMENT = "element-6066-11e4-a52e-4f735466cecf"  # the name that the protocol gives to an element's number
LIMIT = 60
DOWN, SPACE = "\ue015", "\ue00d"  # keys


def missing():
    """The packages that are not there."""
    fonts = any(pathlib.Path("/usr/share/fonts").rglob("*.[ot]tf"))
    return [package for program, package in PROGRAMS.items() if shutil.which(program) is None] + ([] if fonts else [FONTS])


def install():
    """Installs what is not there. The lists of packages are fetched only if they turn out to be missing too."""
    packages = missing()
    if not packages:
        return
    print(f"installing {' '.join(packages)} by apt-get", flush=True)
    command = ["apt-get", "install", "-y", "--no-install-recommends", *packages]
    quiet = {"stdout": subprocess.DEVNULL, "stderr": subprocess.DEVNULL, "env": {**os.environ, "DEBIAN_FRONTEND": "noninteractive"}}
    try:
        if subprocess.run(command, **quiet).returncode != 0:
            subprocess.run(["apt-get", "update"], **quiet)
            subprocess.run(command, **quiet)
    except FileNotFoundError:
        pass
    if missing():
        sys.exit(f"{' '.join(missing())}: not there, and apt-get cannot install it")


class Browser:
    def __enter__(self):
        self.driver = subprocess.Popen(["chromedriver", "--port=0"], stdout=subprocess.PIPE, stderr=subprocess.DEVNULL, text=True)
        try:
            ports = (re.search(r"successfully on port (\d+)", line) for line in self.driver.stdout)
            self.base = f"http://localhost:{next(found for found in ports if found)[1]}/session"
            options = {"goog:chromeOptions": {"args": ARGUMENTS}, "goog:loggingPrefs": {"browser": "ALL"}}
            self.base += "/" + self.ask("POST", "", capabilities={"alwaysMatch": {"browserName": "chrome", **options}})["sessionId"]
        except BaseException:
            self.driver.kill()
            raise
        return self

    def __exit__(self, *_):
        try:
            self.ask("DELETE", "")
        finally:
            self.driver.terminate()
            self.driver.wait(LIMIT)

    def ask(self, method, path, **body):
        """One request, and the value that comes back."""
        data = None if method in ("GET", "DELETE") else json.dumps(body).encode()
        request = urllib.request.Request(self.base + path, data, {"Content-Type": "application/json"}, method=method)
        try:
            with urllib.request.urlopen(request, timeout=LIMIT) as reply:
                return json.load(reply)["value"]
        except urllib.error.HTTPError as error:
            sys.exit(f"{method} {path}: {json.load(error)['value']['message']}")

    def devtools(self, command, **parameters):
        return self.ask("POST", "/goog/cdp/execute", cmd=command, params=parameters)

    def open(self, path):
        self.ask("POST", "/url", url=pathlib.Path(path).resolve().as_uri())

    def run(self, script, *args):
        """What a script in the page returns."""
        return self.ask("POST", "/execute/sync", script=script, args=list(args))

    def element(self, selector):
        return "/element/" + self.ask("POST", "/element", using="css selector", value=selector)[ELEMENT]

    def click(self, selector):
        self.ask("POST", self.element(selector) + "/click")

    def press(self, selector, keys):
        self.ask("POST", self.element(selector) + "/value", text=keys)

    def size(self, width, height):
        self.devtools("Emulation.setDeviceMetricsOverride", width=width, height=height, deviceScaleFactor=1, mobile=False)

    def media(self, kind="", scheme="light"):
        """Screen or print, light or dark."""
        self.devtools("Emulation.setEmulatedMedia", media=kind, features=[{"name": "prefers-color-scheme", "value": scheme}])

    def scripts(self, allowed):
        self.devtools("Emulation.setScriptExecutionDisabled", value=not allowed)

    def said(self):
        """What stands in the console since it was last asked."""
        return [entry["message"] for entry in self.ask("POST", "/se/log", type="browser")]

    def picture(self, x, y, width, height):
        """A part of the page as PNG."""
        clip = {"x": x, "y": y, "width": width, "height": height, "scale": 1}
        return base64.b64decode(self.devtools("Page.captureScreenshot", format="png", captureBeyondViewport=True, clip=clip)["data"])

    def printed(self):
        """The page as it is printed, as PDF."""
        return base64.b64decode(self.ask("POST", "/print", orientation="landscape", background=True))
