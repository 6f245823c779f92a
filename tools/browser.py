"""Try the page of ./gateway page in a real browser: Debian's chromium, without a window, driven through its debugging pipe. No part of the gate.

    python3 -m tools.browser FOLDER          the page of plan A and two with 4,096 releases; screenshots go into FOLDER

Each thing that a person does on the page is done, and what the page then shows is asked of it: the wheel, keys, drag, hover, click, search, the
worst response. The last line is 'K passed'.
"""

import base64
import contextlib
import json
import os
import pathlib
import random
import shutil
import subprocess
import sys
import tempfile

ROOT = pathlib.Path(__file__).resolve().parents[1]
WIDTH, HEIGHT = 1280, 760
NAMES = ("chromium", "chromium-browser", "google-chrome")


class Browser:
    """One page in one browser."""

    def __init__(self, folder):
        program = next((found for found in map(shutil.which, NAMES) if found), None)
        if program is None:
            sys.exit("there is no chromium here; Debian has it as the package chromium")
        (to_child, self.to), (self.back, from_child) = os.pipe(), os.pipe()
        words = [program, "--headless=new", "--no-sandbox", "--disable-gpu", "--remote-debugging-pipe", f"--user-data-dir={folder}",
                 f"--window-size={WIDTH},{HEIGHT}", "--hide-scrollbars", "about:blank"]

        def low():  # the browser takes its pipe as descriptors 3 and 4
            one, other = os.dup(to_child), os.dup(from_child)
            os.dup2(one, 3)
            os.dup2(other, 4)

        self.process = subprocess.Popen(words, preexec_fn=low, close_fds=False, stdout=subprocess.DEVNULL, stderr=subprocess.DEVNULL)
        os.close(to_child)
        os.close(from_child)
        self.rest, self.count, self.session, self.errors = b"", 0, None, []

    def receive(self):
        while b"\0" not in self.rest:
            piece = os.read(self.back, 1 << 20)
            if not piece:
                raise RuntimeError("the browser has ended")
            self.rest += piece
        message, self.rest = self.rest.split(b"\0", 1)
        return json.loads(message)

    def ask(self, method, **words):
        self.count += 1
        message = {"id": self.count, "method": method, "params": words, **({"sessionId": self.session} if self.session else {})}
        os.write(self.to, json.dumps(message).encode() + b"\0")
        while True:
            answer = self.receive()
            if answer.get("method") in ("Runtime.exceptionThrown", "Network.requestWillBeSent"):
                self.errors.append(answer)
            if answer.get("id") == self.count:
                if "error" in answer:
                    raise RuntimeError(f"{method}: {answer['error']}")
                return answer["result"]

    def show(self, path):
        """Open a file, and wait until it is drawn."""
        target = self.ask("Target.createTarget", url="about:blank")["targetId"]
        self.session = self.ask("Target.attachToTarget", targetId=target, flatten=True)["sessionId"]
        for domain in ("Page", "Runtime"):
            self.ask(f"{domain}.enable")
        self.ask("Emulation.setDeviceMetricsOverride", width=WIDTH, height=HEIGHT, deviceScaleFactor=1, mobile=False)
        self.ask("Page.navigate", url=pathlib.Path(path).resolve().as_uri())
        self.value("new Promise(done => { const go = () => window.page ? done() : setTimeout(go, 20); go(); })")
        self.settle()

    def value(self, expression):
        """What an expression of the page's is, once what was asked before is drawn."""
        found = self.ask("Runtime.evaluate", expression=expression, awaitPromise=True, returnByValue=True)
        if "exceptionDetails" in found:
            raise RuntimeError(json.dumps(found["exceptionDetails"]))
        return found["result"].get("value")

    def settle(self):
        self.value("new Promise(done => requestAnimationFrame(() => requestAnimationFrame(done)))")

    def mouse(self, kind, x, y, **more):
        self.ask("Input.dispatchMouseEvent", type=kind, x=x, y=y, **more)

    def move(self, x, y):
        self.mouse("mouseMoved", x, y)
        self.settle()

    def wheel(self, x, y, by, **more):
        self.mouse("mouseWheel", x, y, deltaX=0, deltaY=by, **more)
        self.settle()

    def click(self, x, y):
        for kind in ("mousePressed", "mouseReleased"):
            self.mouse(kind, x, y, button="left", clickCount=1)
        self.settle()

    def drag(self, x, y, by):
        self.mouse("mousePressed", x, y, button="left", clickCount=1)
        for part in range(1, 6):
            self.mouse("mouseMoved", x + by * part / 5, y, button="left", buttons=1)
        self.mouse("mouseReleased", x + by, y, button="left", clickCount=1)
        self.settle()

    def key(self, key, text=None):
        words = {"key": key, **({"text": text} if text else {})}
        self.ask("Input.dispatchKeyEvent", type="keyDown", **words)
        self.ask("Input.dispatchKeyEvent", type="keyUp", key=key)
        self.settle()

    def type(self, text):
        for letter in text:
            self.ask("Input.dispatchKeyEvent", type="char", text=letter)
        self.settle()

    def shot(self, path):
        data = self.ask("Page.captureScreenshot", format="png")["data"]
        pathlib.Path(path).write_bytes(base64.b64decode(data))

    def end(self):
        with contextlib.suppress(Exception):
            os.write(self.to, json.dumps({"id": 0, "method": "Browser.close"}).encode() + b"\0")
        self.process.wait(20)


class Trial:
    """The checks on one page, counted."""

    def __init__(self, browser, folder, name):
        self.browser, self.folder, self.name, self.passed = browser, folder, name, 0

    def shot(self, what):
        self.browser.shot(os.path.join(self.folder, f"{self.name}-{what}.png"))

    def check(self, what, good):
        if not good:
            self.shot("wrong")
            raise SystemExit(f"{self.name}: {what}")
        self.passed += 1

    def view(self):
        return self.browser.value("({from: page.view.from, scale: page.view.scale, down: page.view.down})")

    def text(self, name):
        return self.browser.value(f"document.getElementById('{name}').hidden ? '' : document.getElementById('{name}').textContent")


def moves(trial):
    """Wheel, keys and drag change what is seen, as they should."""
    browser, before = trial.browser, trial.view()
    browser.wheel(700, 400, -400)
    closer = trial.view()
    trial.check("the wheel zooms in", closer["scale"] > before["scale"])
    tick = before["from"] + (700 - 150) / before["scale"]
    trial.check("around the pointer", abs(closer["from"] + (700 - 150) / closer["scale"] - tick) < 0.02 * abs(tick) + 2 / before["scale"])
    browser.drag(700, 500, 200)
    dragged = trial.view()
    trial.check("a drag moves by as much", abs((closer["from"] - dragged["from"]) * closer["scale"] - 200) < 2)
    browser.key("ArrowRight")
    trial.check("an arrow key moves", trial.view()["from"] > dragged["from"])
    browser.key("+", "+")
    trial.check("a key zooms", trial.view()["scale"] > dragged["scale"])
    browser.key("a", "a")
    trial.check("a key shows all again", abs(trial.view()["scale"] - before["scale"]) < 1e-9)


def jumps(trial):
    """The worst response, and search by task and tick."""
    browser = trial.browser
    browser.key("w", "w")
    told = trial.text("why")
    most = browser.value("Math.max(...page.lives.filter(life => !life.skipped).map(life => life.end - life.release))")
    trial.check("the worst response is told", f"response {most} tick" in told and "blocked in" in told)
    trial.shot("worst")
    browser.key("Escape")
    trial.check("Escape lets go", trial.text("why") == "" or browser.value("document.getElementById('pinned').hidden"))
    task, release = browser.value("(life => [life.task, life.release])(page.lives[page.lives.length >> 1])")
    browser.key("/", "/")
    browser.type(f"{task} {release}")
    browser.key("Enter", "\r")
    trial.check("search finds a release", f"The release of task {task} at {release} was" in trial.text("why"))
    browser.key("Escape")
    browser.key("a", "a")


def hovers(trial):
    """Pointing at a job tells of it."""
    browser = trial.browser
    browser.value("(life => { page.view.scale = 40; page.view.from = life.release - 3; page.draw(); })(page.lives[0])")
    task, place = browser.value("[page.lives[0].task, page.x(page.lives[0].phases.find(phase => phase[0] === 5)[1]) + 5]")
    top = browser.value("document.getElementById('canvas').getBoundingClientRect().top")
    browser.move(place, top + 34 + 34 + 17)  # the engine's row: its copy-in
    told = trial.text("hover")
    trial.check("the hover tells why", f"The release of task {task} at " in told and "response" in told)
    trial.shot("hover")
    browser.click(place, top + 34 + 34 + 17)
    trial.check("a click keeps it", sorted(trial.text("why").split()) == sorted(told.split()))
    browser.key("Escape")
    browser.key("a", "a")


def finds(trial):
    """Each of some releases, skipped ones too, is found where it is drawn, however close the view is."""
    missed = trial.browser.value("""(() => { const missed = [], lives = page.lives.filter((life, at) => life.skipped || at % 97 === 0);
        for (const life of lives) {
            page.view.scale = 30; page.view.from = life.release - 5; page.view.down = 0; page.draw();
            const at = page.rows.findIndex(row => row.includes(life)), own = life.phases.find(phase => phase[0] !== 0);
            const there = tick => [0.47, 0.86].map(part => page.lifeAt(page.x(tick) + 1, page.rowTop(at) + part * page.rowSize()));
            if (!there(life.release).includes(life)) missed.push([life.task, life.release]);
            if (own) { // in the middle of what is done for it, with that in sight
                const middle = Math.floor((own[1] + life.end) / 2);
                page.view.from = middle - 1;
                page.draw();
                if (!there(middle).includes(life)) missed.push([life.task, life.release, middle]);
            }
        } return missed; })()""")
    trial.check(f"every release is found where it is: {missed}", missed == [])
    trial.browser.key("a", "a")


def frames(trial):
    """How long a frame takes, in milliseconds, at several zooms: the most of their means."""
    return trial.browser.value("""(() => { let most = 0; page.view.down = 0;
        for (const scale of [0.0001, 0.05, 0.3, 2, 20]) { const began = performance.now();
            for (let turn = 0; turn < 20; turn++) { page.view.scale = scale; page.view.from = turn * 50; page.draw(); }
            most = Math.max(most, (performance.now() - began) / 20); } return most; })()""")


def long_plan(ticks, count):
    """4,096 releases of some tasks, all at random ticks."""
    rng = random.Random(3)
    found = set()
    while len(found) < 4096:
        found.add((rng.randrange(ticks), rng.randrange(count)))
    tasks = [f"task {number} {number} {number % 2} {1 + number % 5} {1 + number % 7} {1 + number % 3}" for number in range(count)]
    return "".join(f"{line}\n" for line in tasks + [f"release {time} {task}" for time, task in sorted(found)])


def try_page(plan, name, folder, most=None):
    with tempfile.TemporaryDirectory() as room:
        page = os.path.join(room, "run.html")
        with open(page, "wb") as file:
            subprocess.run([str(ROOT / "gateway"), "page", plan], stdout=file, check=True)
        browser = Browser(os.path.join(room, "profile"))
        try:
            browser.show(page)
            trial = Trial(browser, folder, name)
            trial.shot("all")
            moves(trial)
            jumps(trial)
            hovers(trial)
            finds(trial)
            if most is not None:
                took = frames(trial)
                print(f"{name}: a frame takes at most {took:.1f} ms")
                trial.check(f"a frame takes at most {most} ms", took <= most)
            trial.check(f"nothing is thrown: {browser.errors}", not browser.errors)
            return trial.passed
        finally:
            browser.end()


def main(words):
    if len(words) != 1:
        sys.stderr.write(__doc__)
        return 2
    folder = words[0]
    os.makedirs(folder, exist_ok=True)
    passed = try_page(str(ROOT / "plans/a.plan"), "a", folder)
    for name, ticks, count in (("long", 30_000, 32), ("crowded", 5_000, 12)):  # in the second one most releases are skipped
        plan = os.path.join(folder, f"{name}.plan")
        pathlib.Path(plan).write_text(long_plan(ticks, count), encoding="utf-8")
        passed += try_page(plan, name, folder, most=50)
    print(f"{passed} passed")
    return 0


if __name__ == "__main__":
    sys.exit(main(sys.argv[1:]))
