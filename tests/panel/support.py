"""What the tests of the panel share: a JACK server of their own, a show, one who hears OSC, one who speaks WebSocket by hand, and a browser."""
import base64
import csv
import fcntl
import importlib.util
import json
import os
import pathlib
import shutil
import signal
import socket
import struct
import subprocess
import sys
import tempfile
import threading
import time

ROOT = pathlib.Path(__file__).resolve().parents[2]
OUT = ROOT / "target" / "panel"
OUTLETS = ("show-web", "show-osc", "show-osc-in")
DEBIAN = "/usr/bin/python3"
# A proxy is for what is elsewhere, and all here is on this machine.
for word in ("http_proxy", "https_proxy", "all_proxy"):
    os.environ.pop(word, None)
    os.environ.pop(word.upper(), None)
PATIENCE = 30  # seconds: after them what is waited for does not come


class PassedOver(Exception):
    """Something is missing here to try it with."""


def passed_over(why):
    """Says so. The status: what was found before that stands."""
    print("passed over: %s" % why, flush=True)
    return 1 if Judge.all_faults else 3


# ---- what is tried

def lacking():
    """What a machine lacks of all that is needed, as the name of a package of Debian's, or None. Debian's modules are for Debian's own python3: where
    another one runs this, that one is run in its place."""
    for program, package in (("jackd", "jackd2"), ("jack_wait", "jackd2"), ("chromium", "chromium"), ("chromedriver", "chromium-driver")):
        if not shutil.which(program):
            return package
    for module, package in (("selenium", "python3-selenium"), ("websockets", "python3-websockets")):
        if importlib.util.find_spec(module) is None:
            if os.access(DEBIAN, os.X_OK) and os.path.realpath(sys.executable) != os.path.realpath(DEBIAN):
                os.execv(DEBIAN, [DEBIAN, "-B", *sys.argv])
            return package
    return None


def guards():
    """The address sanitizer's words for the compiler, where it is at hand."""
    words = "-fsanitize=address,undefined -fno-sanitize-recover=all"
    trial = OUT / "trial"
    trial.with_suffix(".c").write_text("int main(void) { return 0; }\n")
    made = subprocess.run([os.environ.get("CC", "cc"), *words.split(), str(trial.with_suffix(".c")), "-o", str(trial)], capture_output=True)
    return words if made.returncode == 0 and subprocess.run([str(trial)], capture_output=True).returncode == 0 else ""


def build(tree, into, how):
    """Builds the show and its outlets of a tree, over a library that is built already or is built now."""
    env = dict(os.environ, GUARDS=how, SHOW_BIN=str(into))
    archive = os.environ.get("LENT_ARCHIVE") or (str(ROOT / "target/staticlib/libgibbonplate.a") if tree != ROOT else "")
    if archive:
        env["LENT_ARCHIVE"] = archive
    made = subprocess.run([str(tree / "show" / "build")], env=env, capture_output=True, text=True)
    if made.returncode == 3 or (made.returncode == 0 and "not built" in made.stdout):
        raise PassedOver((made.stderr or made.stdout).strip().splitlines()[-1])
    if made.returncode != 0:
        raise SystemExit(made.stdout + made.stderr)
    return into


# ---- what is judged

class Judge:
    """Says of each thing whether it is as it should be."""

    all_faults = 0

    def __init__(self):
        self.faults = 0

    def expect(self, what, so, said=""):
        if not so:
            self.faults += 1
            Judge.all_faults += 1
        print("%s  %s%s" % ("as it should be" if so else "NOT AS IT SHOULD BE", what, "" if so or said == "" else ": %s" % (said,)), flush=True)
        return bool(so)

    def same(self, what, got, wanted):
        return self.expect(what, got == wanted, "%r and not %r" % (got, wanted))


def until(what, patience=PATIENCE):
    """Waits until something is so; what it is then, or None."""
    end = time.monotonic() + patience
    while time.monotonic() < end:
        found = what()
        if found:
            return found
        time.sleep(0.02)
    return None


# ---- a server and a show

def in_real_time():
    return bool(shutil.which("chrt")) and subprocess.run(["chrt", "-f", "1", "true"], capture_output=True).returncode == 0


class Jack:
    """A JACK server with the dummy driver, which needs no card. JACK keeps a list of eight servers, and one that was killed stays in it until another
    takes its name: so the names are few, and a name is held by a lock."""

    def __init__(self, rate=48000, frames=256):
        for number in range(100):
            self.name = "gibbonplate-panel-%d-%d" % (os.getuid(), number)
            try:
                self.lock = open(os.path.join(tempfile.gettempdir(), self.name + ".lock"), "w")
            except OSError as why:
                raise PassedOver("no server's name can be held: %s" % why) from None
            try:
                fcntl.flock(self.lock, fcntl.LOCK_EX | fcntl.LOCK_NB)
                break
            except OSError:
                self.lock.close()
        self.again(rate, frames)

    def again(self, rate=48000, frames=256):
        """Starts it, for the first time or after it has ended."""
        for _ in range(3):  # where several start at once, one may find the servers' list locked
            if self.start(rate, frames):
                return
            self.end()
            time.sleep(1)
        raise PassedOver("no JACK server starts here; %s says why" % self.log.name)

    def start(self, rate, frames):
        self.log = open(OUT / (self.name + ".log"), "w", encoding="utf-8")
        how = ["-R", "-P", "60"] if in_real_time() else ["-r"]
        self.process = subprocess.Popen(
            ["jackd", *how, "-t", "10000", "-n", self.name, "-d", "dummy", "-r", str(rate), "-p", str(frames)],
            stdout=self.log, stderr=self.log, env=dict(os.environ, JACK_NO_AUDIO_RESERVATION="1"))
        return until(lambda: self.answers() or self.process.poll() is not None) and self.process.poll() is None

    def answers(self):
        try:  # it hangs at a server that died as it started
            return subprocess.run(["jack_wait", "-s", self.name, "-c"], capture_output=True, text=True, timeout=10).stdout.startswith("running")
        except subprocess.TimeoutExpired:
            return False

    def __enter__(self):
        return self

    def end(self):
        self.process.send_signal(signal.SIGCONT)
        self.process.terminate()
        self.process.wait()
        self.log.close()

    def __exit__(self, *_):
        self.end()
        self.lock.close()


def free_port(kind=socket.SOCK_STREAM):
    with socket.socket(socket.AF_INET, kind) as s:
        s.bind(("127.0.0.1", 0))
        return s.getsockname()[1]


class Show:
    def __init__(self, programs, jack, *words, name="show"):
        self.log, self.said = OUT / (name + ".csv"), OUT / (name + ".said")
        self.log.unlink(missing_ok=True)
        with open(self.said, "w", encoding="utf-8") as said:
            self.process = subprocess.Popen([str(programs / "show"), "--server", jack.name, "--log", str(self.log), *map(str, words)],
                                            stdin=subprocess.DEVNULL, stdout=subprocess.DEVNULL, stderr=said)
        until(lambda: self.process.poll() is not None or (self.log.exists() and self.log.stat().st_size > 0))

    def __enter__(self):
        return self

    def __exit__(self, *_):
        if self.process.poll() is None:
            self.end()

    def end(self):
        self.process.terminate()
        return self.process.wait(PATIENCE)

    def outlet(self, name):
        """The process of an outlet."""
        for task in pathlib.Path("/proc/%d/task" % self.process.pid).iterdir():
            for pid in (task / "children").read_text().split():
                command = pathlib.Path("/proc/%s/cmdline" % pid).read_bytes().split(b"\0")[0].decode()
                if command == name:
                    return int(pid)
        return None

    def rows(self):
        """The log's rows, without its last one."""
        with open(self.log, encoding="utf-8", newline="") as file:
            return list(csv.DictReader(file))[:-1]

    def figures(self):
        with open(self.log, encoding="utf-8", newline="") as file:
            return list(csv.DictReader(file))[-1]["note"]


# ---- OSC, by hand: what liblo makes of it is tried

def osc_text(text):
    text = text.encode() + b"\0"
    return text + b"\0" * (-len(text) % 4)


def osc(path, *values):
    tags, data = ",", b""
    for value in values:
        if value is True or value is False:
            tags += "T" if value else "F"
        elif isinstance(value, int):
            tags, data = tags + "i", data + struct.pack(">i", value)
        elif isinstance(value, float):
            tags, data = tags + "f", data + struct.pack(">f", value)
        else:
            tags, data = tags + "s", data + osc_text(value)
    return osc_text(path) + osc_text(tags) + data


def read_osc(packet):
    def text(at):
        end = packet.index(b"\0", at)
        return packet[at:end].decode(), (end + 4) & ~3
    path, at = text(0)
    tags, at = text(at)
    values = []
    for tag in tags[1:]:
        if tag == "i":
            values.append(struct.unpack_from(">i", packet, at)[0])
            at += 4
        elif tag == "f":
            values.append(round(struct.unpack_from(">f", packet, at)[0], 6))
            at += 4
        elif tag == "s":
            value, at = text(at)
            values.append(value)
        else:
            values.append(tag == "T")
    return (path, *values)


class Listener:
    """One who hears OSC: every message in order."""

    def __init__(self):
        self.socket = socket.socket(socket.AF_INET, socket.SOCK_DGRAM)
        self.socket.setsockopt(socket.SOL_SOCKET, socket.SO_RCVBUF, 1 << 20)
        self.socket.bind(("127.0.0.1", 0))
        self.place = "127.0.0.1:%d" % self.socket.getsockname()[1]
        self.heard = []
        threading.Thread(target=self.listen, daemon=True).start()

    def listen(self):
        while True:
            self.heard.append(read_osc(self.socket.recv(4096)))

    def of(self, path):
        return [message[1] if len(message) > 1 else None for message in list(self.heard) if message[0] == path]


class Sender:
    def __init__(self, port):
        self.port = port
        self.socket = socket.socket(socket.AF_INET, socket.SOCK_DGRAM)

    def send(self, path, *values):
        self.raw(osc(path, *values))

    def raw(self, packet):
        self.socket.sendto(packet, ("127.0.0.1", self.port))


# ---- WebSocket, by hand: so that it can be wrong

class Web:
    def __init__(self, port, host=None, origin="own", protocol="gibbonplate", path="/ws", address="127.0.0.1"):
        host = host or "%s:%d" % (address, port)
        self.socket = socket.create_connection((address, port), PATIENCE)
        head = ["GET %s HTTP/1.1" % path, "Host: " + host, "Upgrade: websocket", "Connection: Upgrade", "Sec-WebSocket-Version: 13",
                "Sec-WebSocket-Key: " + base64.b64encode(os.urandom(16)).decode()]
        if origin:
            head.append("Origin: " + ("http://" + host if origin == "own" else origin))
        if protocol:
            head.append("Sec-WebSocket-Protocol: " + protocol)
        got = b""
        try:
            self.socket.sendall(("\r\n".join(head) + "\r\n\r\n").encode())
            while b"\r\n\r\n" not in got:
                more = self.socket.recv(1)
                if not more:
                    break
                got += more
        except OSError:
            pass
        self.status = got.split(b" ")[1].decode() if got else "closed"

    def __enter__(self):
        return self

    def __exit__(self, *_):
        self.socket.close()

    def send(self, text, **how):
        self.raw(frame(text, **how))

    def raw(self, data):
        try:
            self.socket.sendall(data)
        except OSError:
            pass

    def exactly(self, count):
        got = b""
        while len(got) < count:
            more = self.socket.recv(count - len(got))
            if not more:
                raise OSError("closed")
            got += more
        return got

    def frame(self):
        head = self.exactly(2)
        length = head[1] & 127
        if length == 126:
            length = struct.unpack(">H", self.exactly(2))[0]
        elif length == 127:
            length = struct.unpack(">Q", self.exactly(8))[0]
        return head[0] & 15, self.exactly(length)

    def closed_with(self, patience=5):
        """The code with which it is closed, "closed" without one, or "open"."""
        self.socket.settimeout(patience)
        try:
            while True:
                kind, data = self.frame()
                if kind == 8:
                    return struct.unpack(">H", data[:2])[0] if len(data) >= 2 else "closed"
        except socket.timeout:
            return "open"
        except OSError:
            return "closed"

    def face(self, wanted=lambda face: True, patience=PATIENCE):
        """Reads faces, and answers them, until one is as wanted."""
        end = time.monotonic() + patience
        self.socket.settimeout(patience)
        try:
            while time.monotonic() < end:
                kind, data = self.frame()
                if kind == 8:
                    return None
                if kind == 1:
                    face = json.loads(data)
                    self.send("seen %d" % face["message"])
                    if wanted(face):
                        return face
        except OSError:
            pass
        return None


def frame(text, op=1, fin=True, mask=True, reserved=0):
    data = text if isinstance(text, bytes) else text.encode()
    count, masked = len(data), 0x80 if mask else 0
    head = bytes([(0x80 if fin else 0) | reserved | op])
    if count < 126:
        head += bytes([masked | count])
    elif count < 65536:
        head += bytes([masked | 126]) + struct.pack(">H", count)
    else:
        head += bytes([masked | 127]) + struct.pack(">Q", count)
    if not mask:
        return head + data
    key = os.urandom(4)
    return head + key + (bytes(b ^ key[i % 4] for i, b in enumerate(data)) if count < 100000 else data)


# ---- a browser

# Each state of what is lit, in the order in which it is seen, by the names of the sheet.
WATCH = """
window.lit = [];
const sheet = document.getElementById('sheet').shadowRoot;
const now = () => [...sheet.querySelectorAll('.lit')].map(e => e.id).filter(id => /^(icon|key)-\\w+$/.test(id)).join(' ');
lit.push(now());
new MutationObserver(() => { if (now() !== lit[lit.length - 1]) lit.push(now()); })
    .observe(sheet, {subtree: true, attributes: true, attributeFilter: ['class']});"""


class Browser:
    def __init__(self, width=1280, height=943):
        from selenium import webdriver
        from selenium.common.exceptions import WebDriverException
        from selenium.webdriver.chrome.service import Service
        options = webdriver.ChromeOptions()
        options.binary_location = shutil.which("chromium")
        for word in ("--headless=new", "--no-sandbox", "--disable-gpu", "--disable-dev-shm-usage", "--hide-scrollbars",
                     "--window-size=%d,%d" % (width, height), "--disable-background-timer-throttling",
                     "--disable-backgrounding-occluded-windows", "--disable-renderer-backgrounding"):
            options.add_argument(word)
        options.set_capability("goog:loggingPrefs", {"browser": "ALL"})
        try:
            self.driver = webdriver.Chrome(service=Service(shutil.which("chromedriver")), options=options)
        except WebDriverException as why:
            raise PassedOver("no Chromium starts here: %s" % str(why).strip().splitlines()[0]) from None

    def __enter__(self):
        return self

    def __exit__(self, *_):
        self.driver.quit()

    def run(self, script, *words):
        return self.driver.execute_script(script, *words)

    def open(self, url):
        self.driver.get("about:blank")
        self.driver.get(url)
        return self.joined()

    def joined(self):
        """Waits until the panel has the show and its sheet."""
        return until(lambda: self.state() == "" and self.run("return !!document.getElementById('sheet').shadowRoot.querySelector('svg')"))

    def state(self):
        """"" for one that shows, "lost", or "mute"."""
        return self.run("return document.body.className")

    def why(self):
        return self.run("return document.getElementById('lost').innerText")

    def lit(self):
        return self.run("return [...document.getElementById('sheet').shadowRoot.querySelectorAll('.lit')].map(e => e.id)")

    def is_lit(self, name):
        return until(lambda: name in self.lit())

    def was_lit(self, name):
        """Whether it was lit since WATCH was run, be it for a moment; told, and not judged, for it may be shorter than a busy
        machine's pause."""
        return until(lambda: self.run("return lit.some(state => state.split(' ').includes(arguments[0]))", name), 5)

    def text(self, name):
        return self.run("return document.getElementById('sheet').shadowRoot.getElementById(arguments[0])?.textContent", name)

    def reply(self):
        return self.run("return document.getElementById('reply').textContent")

    def report(self):
        return self.run("return document.getElementById('report').hidden ? '' : document.getElementById('report').textContent")

    def touch(self, selector):
        """A finger on the middle of an element of the sheet."""
        from selenium.webdriver.common.actions import interaction
        from selenium.webdriver.common.actions.action_builder import ActionBuilder
        from selenium.webdriver.common.actions.pointer_input import PointerInput
        x, y = self.run("const b = document.getElementById('sheet').shadowRoot.querySelector(arguments[0]).getBoundingClientRect();"
                        "return [b.x + b.width / 2, b.y + b.height / 2]", selector)
        action = ActionBuilder(self.driver, mouse=PointerInput(interaction.POINTER_TOUCH, "finger"))
        action.pointer_action.move_to_location(int(x), int(y)).pointer_down().pointer_up()
        action.perform()

    def type(self, line):
        self.driver.find_element("css selector", "#line").send_keys(line + "\n")

    def size(self, width, height):
        """The screen of a tablet or a telephone."""
        self.driver.execute_cdp_cmd("Emulation.setDeviceMetricsOverride", {"width": width, "height": height, "deviceScaleFactor": 1, "mobile": True})
        self.driver.execute_cdp_cmd("Emulation.setTouchEmulationEnabled", {"enabled": True})

    def picture(self, name):
        self.driver.save_screenshot(str(OUT / name))

    def console(self):
        return [entry["message"] for entry in self.driver.get_log("browser")]
