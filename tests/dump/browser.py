"""A headless Chromium driven over the DevTools protocol: clicks, keys, values of the page and pictures of it."""
import base64
import json
import os
import shutil
import socket
import struct
import subprocess
import time
import urllib.request

WAIT = 60  # Seconds; on a busy machine the browser takes long to start.


class Browser:
    """One window with one page."""

    def __init__(self, folder, width=1240, height=1600):
        self.events, self.number, self.rest = [], 0, b""
        self.process = subprocess.Popen(
            [shutil.which("chromium"), "--headless", "--no-sandbox", "--disable-gpu", "--remote-debugging-port=0",
             "--no-first-run", "--hide-scrollbars", f"--user-data-dir={folder}", f"--window-size={width},{height}",
             "about:blank"], stdout=subprocess.DEVNULL, stderr=subprocess.DEVNULL)
        try:
            port = self.port(folder)
            pages = json.loads(urllib.request.urlopen(f"http://127.0.0.1:{port}/json/list", timeout=WAIT).read())
            path = next(page for page in pages if page["type"] == "page")["webSocketDebuggerUrl"].split(str(port), 1)[1]
            self.connect(port, path)
        except BaseException:
            self.close()
            raise
        for domain in ("Page", "Runtime", "Network"):
            self.send(f"{domain}.enable")

    def port(self, folder):
        """The port that the browser chose."""
        until = time.time() + WAIT
        while time.time() < until:
            try:
                return int((folder / "DevToolsActivePort").read_text().splitlines()[0])
            except (OSError, IndexError, ValueError):
                time.sleep(0.1)
        raise TimeoutError("Chromium does not start")

    def close(self):
        self.process.terminate()
        self.process.wait()

    # ---- Web socket --------------------------------------------------------------------------------

    def connect(self, port, path):
        self.socket = socket.create_connection(("127.0.0.1", port), timeout=WAIT)
        key = base64.b64encode(os.urandom(16)).decode()
        self.socket.sendall((f"GET {path} HTTP/1.1\r\nHost: 127.0.0.1:{port}\r\nUpgrade: websocket\r\n"
                             f"Connection: Upgrade\r\nSec-WebSocket-Key: {key}\r\nSec-WebSocket-Version: 13\r\n\r\n"
                             ).encode())
        answer = b""
        while b"\r\n\r\n" not in answer:
            answer += self.socket.recv(1)
        if b" 101 " not in answer.splitlines()[0]:
            raise ConnectionError(answer)

    def read(self, count):
        while len(self.rest) < count:
            more = self.socket.recv(65536)
            if not more:
                raise ConnectionError("Chromium has ended")
            self.rest += more
        taken, self.rest = self.rest[:count], self.rest[count:]
        return taken

    def receive(self):
        """One message, of any number of frames."""
        message = b""
        while True:
            first, second = self.read(2)
            length = second & 127
            if length == 126:
                length = struct.unpack(">H", self.read(2))[0]
            elif length == 127:
                length = struct.unpack(">Q", self.read(8))[0]
            body = self.read(length)
            if first & 15 in (0, 1, 2):
                message += body
                if first & 128:
                    return json.loads(message)

    def send(self, method, **parameters):
        """A command and its result; events that come before it are kept."""
        self.number += 1
        body = json.dumps({"id": self.number, "method": method, "params": parameters}).encode()
        head = bytes([129]) + (bytes([128 | len(body)]) if len(body) < 126 else
                               bytes([254]) + struct.pack(">H", len(body)) if len(body) < 65536 else
                               bytes([255]) + struct.pack(">Q", len(body)))
        mask = os.urandom(4)
        self.socket.sendall(head + mask + bytes(byte ^ mask[at % 4] for at, byte in enumerate(body)))
        while True:
            message = self.receive()
            if message.get("id") != self.number:
                self.events.append(message)
            elif "error" in message:
                raise RuntimeError(f"{method}: {message['error']}")
            else:
                return message["result"]

    # ---- What a reader does ------------------------------------------------------------------------

    def open(self, url):
        self.events = []
        self.send("Page.navigate", url=url)
        until = time.time() + WAIT
        while self.value("document.readyState") != "complete" or self.value("location.href") == "about:blank":
            if time.time() > until:
                raise TimeoutError(url)
            time.sleep(0.05)

    def value(self, expression):
        """The value of an expression in the page."""
        result = self.send("Runtime.evaluate", expression=expression, returnByValue=True, awaitPromise=True)
        if "exceptionDetails" in result:
            raise RuntimeError(f"{expression}: {result['exceptionDetails']}")
        return result["result"].get("value")

    def click_at(self, x, y):
        for kind in ("mouseMoved", "mousePressed", "mouseReleased"):
            pressed = kind != "mouseMoved"
            self.send("Input.dispatchMouseEvent", type=kind, x=x, y=y, button="left" if pressed else "none",
                      clickCount=int(pressed))

    def click(self, element, x=0.5, y=0.5):
        """A click on an element, given as an expression, at this part of its width and height."""
        self.value(f"{element}.scrollIntoView({{block: 'center'}})")
        box = self.value(f"(box => [box.x, box.y, box.width, box.height])({element}.getBoundingClientRect())")
        self.click_at(box[0] + x * box[2], box[1] + y * box[3])

    def key(self, key, code, modifiers=0):
        for kind in ("rawKeyDown", "keyUp"):
            self.send("Input.dispatchKeyEvent", type=kind, key=key, code=key, windowsVirtualKeyCode=code,
                      modifiers=modifiers)

    def type_into(self, element, text):
        """Text typed into a field, in the place of what stands there."""
        self.click(element)
        self.value(f"{element}.select()")
        self.key("Delete", 46)
        for letter in text:
            self.send("Input.dispatchKeyEvent", type="keyDown", text=letter)
            self.send("Input.dispatchKeyEvent", type="keyUp")

    def picture(self, path):
        height = self.value("document.documentElement.scrollHeight")
        clip = {"x": 0, "y": 0, "width": 1240, "height": height, "scale": 1}
        shot = self.send("Page.captureScreenshot", format="png", captureBeyondViewport=True, clip=clip)
        path.write_bytes(base64.b64decode(shot["data"]))
