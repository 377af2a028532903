"""A small client of chromedriver: WebDriver over HTTP, by Python's own library alone."""
import base64, glob, json, os, shutil, socket, subprocess, time, urllib.request

SHIFT = "\ue008"


def missing():
    """What has to be installed first, or nothing."""
    return [it for it in ("chromium", "chromedriver") if not shutil.which(it)]


class Browser:
    def __init__(self, width=1400, height=1000):
        with socket.socket() as it:
            it.bind(("127.0.0.1", 0))
            self.port = it.getsockname()[1]
        self.driver = subprocess.Popen(["chromedriver", "--port=%d" % self.port], stdout=subprocess.DEVNULL, stderr=subprocess.DEVNULL, start_new_session=True)
        args = ["--headless=new", "--no-sandbox", "--disable-gpu", "--hide-scrollbars", "--window-size=%d,%d" % (width, height)]
        wanted = {"alwaysMatch": {"goog:chromeOptions": {"args": args}, "goog:loggingPrefs": {"browser": "ALL"}}}
        for _ in range(300):
            try:
                self.session = self.ask("POST", "/session", {"capabilities": wanted}, bare=True)["sessionId"]
                return
            except OSError:
                time.sleep(0.1)
        raise RuntimeError("chromedriver doesn't answer")

    def ask(self, method, path, body=None, bare=False):
        url = "http://127.0.0.1:%d%s%s" % (self.port, "" if bare else "/session/" + self.session, path)
        data = None if body is None else json.dumps(body).encode()
        request = urllib.request.Request(url, data=data, method=method, headers={"Content-Type": "application/json"})
        with urllib.request.urlopen(request, timeout=300) as answer:
            return json.load(answer)["value"]

    def open(self, file, fragment=""):
        self.ask("POST", "/url", {"url": "about:blank"})
        self.ask("POST", "/url", {"url": "file://%s%s" % (os.path.abspath(file), fragment)})

    def run(self, code, *args):
        return self.ask("POST", "/execute/sync", {"script": code, "args": list(args)})

    def keys(self, text, shift=False):
        """Types into whatever has the focus."""
        acts = [it for key in text for it in ({"type": "keyDown", "value": key}, {"type": "keyUp", "value": key})]
        if shift:
            acts = [{"type": "keyDown", "value": SHIFT}, *acts, {"type": "keyUp", "value": SHIFT}]
        self.ask("POST", "/actions", {"actions": [{"type": "key", "id": "keys", "actions": acts}]})

    def click_at(self, x, y):
        acts = [{"type": "pointerMove", "x": int(x), "y": int(y)}, {"type": "pointerDown", "button": 0}, {"type": "pointerUp", "button": 0}]
        self.ask("POST", "/actions", {"actions": [{"type": "pointer", "id": "pointer", "actions": acts}]})

    def processor_seconds(self):
        """What the driver and all processes of its session, the browser's among them, have taken so far."""
        ticks = 0
        for file in glob.glob("/proc/[0-9]*/stat"):
            try:
                with open(file) as it:
                    words = it.read().rsplit(")", 1)[1].split()
            except OSError:
                continue
            if int(words[3]) == self.driver.pid:
                ticks += int(words[11]) + int(words[12])
        return ticks / os.sysconf("SC_CLK_TCK")

    def shot(self, file):
        with open(file, "wb") as out:
            out.write(base64.b64decode(self.ask("GET", "/screenshot")))

    def log(self):
        return self.ask("POST", "/se/log", {"type": "browser"})

    def close(self):
        try:
            self.ask("DELETE", "")
        finally:
            self.driver.terminate()
            self.driver.wait()
