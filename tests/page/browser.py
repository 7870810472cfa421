"""The page in a browser, for what shows how it works."""

import base64
import json
import os
import select
import shutil
import signal
import subprocess
import time
from collections.abc import Iterator
from contextlib import contextmanager
from pathlib import Path

import peers  # of tests, as pages.py has it
from pages import (
    HOST, KILLED_SECONDS, OLGA, OTTO, PATIENCE_SECONDS, POLICY, RITA, TRADERS, Points, Server, flood_policy, flooding, is_documented,
    serving, traded,
)

INSTALL_SECONDS = 240
LEFT_SECONDS = 40  # so many are left for looking at the page, once a browser is there


class Browser:
    """Chromium without a window, spoken to by its DevTools protocol over two pipes."""

    def __init__(self, chromium: str, folder: Path) -> None:
        theirs, self.commands = os.pipe()
        self.told, told = os.pipe()
        words = [
            chromium, "--headless=new", "--no-sandbox", "--disable-gpu", "--hide-scrollbars", "--no-first-run",
            "--disable-lcd-text", f"--user-data-dir={folder / 'profile'}", "--remote-debugging-pipe", "about:blank",
        ]
        # it reads commands from descriptor 3, and tells answers on 4
        self.run = subprocess.Popen(
            ["bash", "-c", f'exec "$@" 3<&{theirs} 4>&{told}', "bash", *words], pass_fds=(theirs, told),
            stdin=subprocess.DEVNULL, stdout=subprocess.DEVNULL, stderr=subprocess.DEVNULL, start_new_session=True,
        )
        os.close(theirs)
        os.close(told)
        self.held, self.number, self.events, self.session = b"", 0, [], None
        target = self.call("Target.createTarget", url="about:blank")["targetId"]
        self.session = self.call("Target.attachToTarget", targetId=target, flatten=True)["sessionId"]
        for domain in ("Page", "Runtime", "Network", "Log"):
            self.call(domain + ".enable")
        self.call("Emulation.setFocusEmulationEnabled", enabled=True)

    def message(self, until: float) -> dict:
        """The next message that it tells."""
        while b"\0" not in self.held:
            rest = until - time.monotonic()
            if rest <= 0 or not select.select([self.told], [], [], rest)[0]:
                raise TimeoutError("the browser does not answer")
            piece = os.read(self.told, 1 << 20)
            if not piece:
                raise ConnectionError("the browser has ended")
            self.held += piece
        text, _, self.held = self.held.partition(b"\0")
        return json.loads(text)

    def call(self, method: str, **parameters: object) -> dict:
        """What it answers to a command; events are kept."""
        self.number += 1
        command = {"id": self.number, "method": method, "params": parameters}
        if self.session:
            command["sessionId"] = self.session
        data = json.dumps(command).encode() + b"\0"
        while data:
            data = data[os.write(self.commands, data):]
        until = time.monotonic() + 2 * PATIENCE_SECONDS
        while (message := self.message(until)).get("id") != self.number:
            self.events.append(message)
        if "error" in message:
            raise ValueError(f"{method}: {message['error']}")
        return message["result"]

    def value(self, expression: str) -> object:
        """The value of an expression on the page."""
        told = self.call("Runtime.evaluate", expression=expression, returnByValue=True, awaitPromise=True)
        if "exceptionDetails" in told:
            raise ValueError(f"{expression}: {told['exceptionDetails']}")
        return told["result"].get("value")

    def waits(self, expression: str, seconds: float = PATIENCE_SECONDS) -> bool:
        """Whether it becomes true in time."""
        until = time.monotonic() + seconds
        while time.monotonic() < until:
            if self.value(expression):
                return True
            time.sleep(0.05)
        return False

    def opens(self, url: str) -> None:
        """Opens a page."""
        self.call("Page.navigate", url=url)
        self.waits("document.readyState === 'complete'")

    def press(self, key: str) -> None:
        """Presses a key, and lets it go."""
        code, text = {"Tab": (9, ""), "Enter": (13, "\r"), "Escape": (27, "")}[key]
        about = {"key": key, "code": key, "windowsVirtualKeyCode": code}
        self.call("Input.dispatchKeyEvent", type="keyDown" if text else "rawKeyDown", text=text, **about)
        self.call("Input.dispatchKeyEvent", type="keyUp", **about)

    def tabs_to(self, expression: str) -> bool:
        """Whether the focus comes, by the Tab key, to where this holds of the element."""
        for _ in range(60):
            self.press("Tab")
            if self.value(f"(({expression})(document.activeElement))"):
                return True
        return False

    def sized(self, width: int, height: int, scheme: str) -> None:
        """Shows the page at this size, light or dark."""
        self.call("Emulation.setDeviceMetricsOverride", width=width, height=height, deviceScaleFactor=1, mobile=width < 500)
        self.call("Emulation.setEmulatedMedia", features=[{"name": "prefers-color-scheme", "value": scheme}])
        time.sleep(0.4)

    def picture(self) -> bytes:
        """The page as it is seen, as a PNG."""
        return base64.b64decode(self.call("Page.captureScreenshot", format="png")["data"])

    def statuses(self, path: str) -> list[int]:
        """The statuses of the answers to requests for this path, as they came over the wire."""
        sent = {
            event["params"]["requestId"] for event in self.events
            if event["method"] == "Network.requestWillBeSent" and event["params"]["request"]["url"].endswith(path)
        }
        return [
            event["params"]["statusCode"] for event in self.events
            if event["method"] == "Network.responseReceivedExtraInfo" and event["params"]["requestId"] in sent
        ]

    def faults(self) -> list[str]:
        """What its console was told of: faults of the script, and what the page's policy forbids."""
        told = [event["params"] for event in self.events if event["method"] in ("Runtime.exceptionThrown", "Log.entryAdded")]
        return [text for text in map(json.dumps, told) if '"source": "network"' not in text]

    def end(self) -> None:
        """Ends it and all its processes."""
        try:
            os.killpg(self.run.pid, signal.SIGKILL)
        except ProcessLookupError:
            pass
        self.run.wait(PATIENCE_SECONDS)


def chromium_here(seconds: float) -> str | None:
    """Chromium, by its Debian package where it is not there yet; None where it can't be had within these seconds."""
    until = time.monotonic() + min(INSTALL_SECONDS, seconds)
    if not shutil.which("chromium"):
        for words in (["update"], ["install", "-y", "--no-install-recommends", "chromium"]):
            try:
                rest = max(0.01, until - time.monotonic())
                subprocess.run(["apt-get", "-q", *words], capture_output=True, timeout=rest, check=True)
            except (OSError, subprocess.SubprocessError):
                return None
    return shutil.which("chromium")


@contextmanager
def browsing(folder: Path, seconds: float) -> Iterator[Browser | None]:
    """A browser; None where none can be had within these seconds."""
    chromium = chromium_here(seconds)
    browser = None
    if chromium:
        try:
            browser = Browser(chromium, folder)
        except (OSError, ValueError):
            browser = None
    try:
        yield browser
    finally:
        if browser:
            browser.end()


NARROW_WIDTHS = (390, 480, 519)
# Ten-thousandths of a dollar, and how they are shown.
AMOUNTS = {
    "0": "$0.00", "4": "$0.0004", "100": "$0.01", "5000": "$0.50", "9999999": "$999.9999", "10000001": "$1,000.0001",
    "300000000": "$30,000.00", "9007199254740993": "$900,719,925,474.0993", "18446744073709551615": "$1,844,674,407,370,955.1615",
}
ROW = "[...document.querySelectorAll('#accounts tr')].find((row) => row.cells[0].textContent === '%s')"

BUTTONS = "[...document.querySelectorAll('#accounts button')].filter((one) => one.checkVisibility())"
ARE_LIVE = f"{BUTTONS}.every((one) => one.getAttribute('aria-disabled') === 'false' && one.title === '' && " \
    "getComputedStyle(one).borderStyle === 'solid')"
# Whether all Kill buttons are disabled, look so, and say this.
ARE_DISABLED = f"{BUTTONS}.every((one) => one.getAttribute('aria-disabled') === 'true' && one.title.startsWith('%s') && " \
    "getComputedStyle(one).borderStyle === 'dashed')"
OLD = "What you see is old"
ELSEWHERE = "You are logged in elsewhere: kill from there, or log out there"
# What is seen at the middle of an element, and whether that is the element or lies in it.
SEEN_AT = "((one) => { const box = one.getBoundingClientRect(); const seen = document.elementFromPoint(box.x + box.width / 2, " \
    "box.y + box.height / 2); return [one.contains(seen), seen && seen.outerHTML.slice(0, 200)]; })(document.getElementById('%s'))"


def page_of(server: Server, user: tuple) -> str:
    """The page's address, with a name and a password."""
    return f"http://{user[0]}:{user[1]}@{HOST}:{server.page}/"


def keep_picture(browser: Browser, points: Points, name: str) -> None:
    """Writes a picture of the page, where pictures are wanted."""
    if points.screenshots:
        points.screenshots.mkdir(parents=True, exist_ok=True)
        (points.screenshots / f"page-{name}.png").write_bytes(browser.picture())


def pictures(browser: Browser, points: Points) -> None:
    """How the page looks on a desk's screen and on a telephone's, light and dark."""
    browser.waits("!/a second\\s+\\u2013/.test(document.body.innerText)", 4)  # the rates are there
    for name, width, height, scheme in (("light", 1280, 720, "light"), ("dark", 1280, 720, "dark"), ("narrow", 390, 844, "light")):
        browser.sized(width, height, scheme)
        wide = browser.value("document.documentElement.scrollWidth")
        points.look(f"{name}: the page is no wider than {width}", wide <= width, wide)
        keep_picture(browser, points, name)
    browser.sized(1280, 720, "light")


def killed_by_keyboard(browser: Browser, points: Points) -> None:
    """Kill of ALFA, asked for by keyboard alone: first not, then so."""
    browser.waits(ARE_LIVE, 3)  # where `gate desk` has logged the officer in they are not at once
    is_kill = "(one) => one.tagName === 'BUTTON' && one.textContent === 'Kill ALFA'"
    points.look("Tab comes to the Kill button of ALFA", browser.tabs_to(is_kill), browser.value("document.activeElement.outerHTML"))
    browser.value(f"window.sameRow = {ROW % 'ALFA'}; 0")
    browser.press("Enter")
    seen = browser.value("[document.querySelector('dialog').open, document.querySelector('dialog').innerText, document.activeElement.id]")
    is_right = seen[0] and seen[1].startswith("Kill ALFA?") and seen[2] == "keep"
    points.look("Enter asks again, and Keep it has the focus", is_right, seen)
    browser.press("Escape")
    is_right = not browser.value("document.querySelector('dialog').open") and browser.statuses("/kill") == []
    points.look("Escape keeps it, and the focus is on its button again", is_right and browser.value(f"({is_kill})(document.activeElement)"))
    browser.press("Enter")
    browser.press("Enter")
    points.look("Enter on Keep it keeps it", not browser.value("document.querySelector('dialog').open") and browser.statuses("/kill") == [])
    time.sleep(1.5)
    points.look("the focus stays through a second's new state", bool(browser.value(f"({is_kill})(document.activeElement)")))
    browser.press("Enter")
    browser.press("Tab")
    began = time.monotonic()
    browser.press("Enter")
    is_seen = browser.waits(f"({ROW % 'ALFA'}).innerText.includes('KILLED')", KILLED_SECONDS)
    took = time.monotonic() - began
    points.look(f"Tab and Enter kill it, and KILLED is seen after {took:.2f} s", is_seen, browser.value("document.body.innerText"))
    points.look("the answer was 303", browser.statuses("/kill") == [303], browser.statuses("/kill"))
    is_told = browser.value("document.getElementById('answer').innerText")
    is_right = is_told.endswith(" Kill ALFA: granted") and is_documented(is_told)
    points.look("the page tells that it was granted", is_right, is_told)
    is_right = browser.value(f"window.sameRow === {ROW % 'ALFA'} && !window.sameRow.querySelector('button').checkVisibility()")
    points.look("its row is the same element, without its button", bool(is_right))


def money(browser: Browser, server: Server, points: Points) -> None:
    """Amounts are shown to the last ten-thousandth of a dollar, also those that no number of a browser holds."""
    told = {digits: browser.value(f"amount(read('[{digits}]')[0], 'dollars/10000')") for digits in AMOUNTS}
    points.look("amounts are told exactly", told == AMOUNTS, told)
    is_right = browser.value(
        "[[1, 'past'], [0, 'near'], [-1, 'near']].every(([more, name]) => withShare({ limit: '9223372036854775807', "
        "used: String(9223372036854775807n + BigInt(more)) }).level.name === name)"
    )
    points.look("and whether a large one is past its limit", is_right)
    row = "[...document.querySelectorAll('#%s tr')].find((row) => row.innerText.startsWith('GROSS'))?.innerText.replace(/\\s+/g, ' ')"
    uses, changed = row % "limits", row % "changed"
    for limit, used in (("9999999", "100.0 % $1,000.00 of $999.9999 \u25b2\u25b2\u25b2 past the limit"),
                        ("10000001", "99.9 % $1,000.00 of $1,000.0001 \u25b2\u25b2 near the limit"), ("18446744073709551615", None)):
        server.desk(OLGA, "limit", "GROSS", limit)
        in_force = f"GROSS {AMOUNTS[limit]} $100,000.00"
        is_right = browser.waits(f"{changed} === '{in_force}'", 3)
        is_right &= used is None or browser.value(uses) == f"GROSS ALFA all {used}"
        points.look(f"a limit of {limit} is shown as {AMOUNTS[limit]}", is_right, browser.value(changed), browser.value(uses))
    server.desk(OLGA, "limit", "GROSS", "1000000000")
    is_right = browser.waits("document.getElementById('changed-section').hidden", 3)
    points.look("the limit of the file is told of no more", is_right, browser.value(changed))


def killed_here(browser: Browser, account: str) -> tuple[bool, float]:
    """Kill of an account by its button: whether KILLED is seen in time, and after how many seconds."""
    browser.waits(ARE_LIVE, 3)
    browser.value(f"({ROW % account}).querySelector('button').focus()")
    browser.press("Enter")
    browser.press("Tab")
    began = time.monotonic()
    browser.press("Enter")
    is_seen = browser.waits(f"({ROW % account}).innerText.includes('KILLED')", KILLED_SECONDS)
    return is_seen, time.monotonic() - began


def old_and_narrow(browser: Browser, points: Points) -> None:
    """A page that is old, on telephones: what says so is in front, and hides no end of the page."""
    for width in NARROW_WIDTHS:
        browser.sized(width, 844, "light")
        seen = [browser.value(SEEN_AT % "banner")]
        keep_picture(browser, points, f"old-{width}")
        browser.value("hasToLogIn = true; showTrouble(); window.scrollTo(0, document.documentElement.scrollHeight); 0")
        seen += [browser.value(SEEN_AT % "banner"), browser.value(SEEN_AT % "again")]
        places = browser.value("['main', 'banner'].map((name) => document.getElementById(name).getBoundingClientRect()).map((box) => "
                               "[box.top, box.bottom])")
        browser.value("hasToLogIn = false; showTrouble(); window.scrollTo(0, 0); 0")
        is_right = all(is_seen for is_seen, _ in seen) and places[0][1] <= places[1][0]
        points.look(f"old, {width} wide: its banner is in front, and below the page's end", is_right, seen, places)
        wide = browser.value("document.documentElement.scrollWidth")
        points.look(f"old, {width} wide: the page is no wider", wide <= width, wide)
    browser.sized(1280, 720, "light")


def kills_nothing(browser: Browser, points: Points) -> None:
    """A page that is old, and on which it was asked already whether to kill: no button kills, and each says why."""
    kills = len(browser.statuses("/kill"))
    browser.value("document.getElementById('kill').focus(); 0")
    browser.press("Enter")
    seen = browser.value("[document.querySelector('dialog').open, document.getElementById('question-why').innerText, "
                         "document.getElementById('kill').getAttribute('aria-disabled'), document.getElementById('kill').title]")
    is_right = seen[0] and seen[1].startswith(OLD) and seen[2] == "true" and seen[3].startswith(OLD)
    points.look("old: the open question kills nothing, and says why", is_right, seen)
    browser.press("Escape")
    is_right = browser.value(f"{BUTTONS}.length === 3 && {ARE_DISABLED % OLD}")
    points.look("old: the Kill buttons are disabled, and say why", is_right, browser.value("document.body.outerHTML"))
    browser.value(f"({ROW % 'BETA'}).querySelector('button').focus()")
    browser.press("Enter")
    told = browser.value("document.getElementById('answer').innerText")
    is_right = not browser.value("document.querySelector('dialog').open") and f" Kill BETA: not asked for. {OLD}" in told
    is_right &= is_documented(told)
    points.look("old: Enter on one asks nothing, and tells why", is_right and len(browser.statuses("/kill")) == kills, told)


def goes_on(browser: Browser, server: Server, points: Points) -> None:
    """A server that is killed and started anew: the page that is open tells the one, goes on behind the other, and kills there."""
    browser.waits(ARE_LIVE, 3)
    browser.value(f"({ROW % 'BETA'}).querySelector('button').focus()")
    browser.press("Enter")
    server.crash()
    is_right = browser.waits("document.getElementById('banner').innerText.startsWith('No answer from the gate since ')", 6)
    points.look("without an answer the page tells that it is old", is_right, browser.value("document.body.innerText"))
    kills_nothing(browser, points)
    old_and_narrow(browser, points)
    server.start()
    is_right = browser.waits("document.getElementById('banner').hidden && !document.body.classList.contains('is-old')", 6)
    points.look("and goes on once the server is there again", is_right, browser.value("document.body.innerText"))
    is_right = browser.value(f"{BUTTONS}.length === 3 && {ARE_LIVE}")
    points.look("its Kill buttons are live again", is_right, browser.value("document.body.outerHTML"))
    is_seen, took = killed_here(browser, "BETA")
    is_right = is_seen and browser.statuses("/kill") == [303, 303] and server.state()["accounts"][1]["killed"]
    points.look(f"a kill of this run's, of the page of the earlier one: KILLED is seen after {took:.2f} s", is_right,
                browser.statuses("/kill"), browser.value("document.body.innerText"))


def logged_in_elsewhere(browser: Browser, server: Server, points: Points) -> None:
    """An officer who is logged in at the trading port is told so beforehand, and asked nothing; and kills once he has logged out."""
    peer = peers.Peer(server.port)
    peer.line.sendall(peers.login(*(word.encode() for word in OLGA)))
    peer.packet()
    is_right = browser.waits(f"{BUTTONS}.length === 2 && {ARE_DISABLED % ELSEWHERE}", 3)
    points.look("who is logged in elsewhere: his Kill buttons are disabled, and say so", is_right, browser.value("document.body.outerHTML"))
    told = browser.value("document.getElementById('elsewhere').checkVisibility() && document.getElementById('elsewhere').innerText")
    points.look("and it stands above them", told == ELSEWHERE, told)
    keep_picture(browser, points, "elsewhere")
    records, kills = server.state()["record"], len(browser.statuses("/kill"))
    browser.value(f"({ROW % 'GAMMA'}).querySelector('button').focus()")
    browser.press("Enter")
    told = browser.value("document.getElementById('answer').innerText")
    is_right = not browser.value("document.querySelector('dialog').open") and told.endswith(f" Kill GAMMA: not asked for. {ELSEWHERE}")
    is_right &= len(browser.statuses("/kill")) == kills and server.state()["record"] == records
    points.look("Enter on one asks nothing, tells why, and makes no record", is_right and is_documented(told), told)
    told = browser.value("kill('GAMMA').then(() => document.getElementById('answer').innerText)")
    is_right = f" Kill GAMMA: not confirmed. {ELSEWHERE[0].lower()}{ELSEWHERE[1:]}" in told and browser.statuses("/kill")[-1] == 403
    points.look("a kill that was asked for just before is not confirmed", is_right and is_documented(told), told)
    peer.log_out()
    is_right = browser.waits(f"{BUTTONS}.length === 2 && {ARE_LIVE} && !document.getElementById('elsewhere').checkVisibility()", 3)
    points.look("once he has logged out they are live again", is_right, browser.value("document.body.outerHTML"))


def shown_to_others(browser: Browser, server: Server, points: Points) -> None:
    """What an officer of two accounts and a reader are shown."""
    names = "[...document.querySelectorAll('#accounts tr')].map((row) => row.cells[0].textContent).join()"
    for user, accounts in ((OTTO, "ALFA,BETA"), (RITA, "BETA")):
        browser.opens(page_of(server, user))
        is_right = browser.waits(f"{names} === '{accounts}' && document.body.innerText.includes('{user[0]}')")
        points.look(f"{user[0]} sees {accounts}", is_right, browser.value(names), browser.value("document.body.innerText"))
        hidden = {"ALFA", "BETA", "GAMMA"} - set(accounts.split(","))
        told = browser.value("document.body.innerText")
        points.look(f"and nothing of {', '.join(sorted(hidden))}", not any(name in told for name in hidden), told)
    shown = browser.value("[...document.querySelectorAll('#accounts button')].filter((one) => one.checkVisibility()).length")
    points.look("a reader sees no Kill button", shown == 0, shown)


def browser(gate: str, folder: Path, points: Points) -> None:
    """The page in a browser."""
    with browsing(folder, points.left() - LEFT_SECONDS) as seen:
        if seen is None:
            points.skip("no browser to be had, so the page was not looked at")
            return
        with serving(gate, folder, POLICY, "--journal", str(folder / "journal")) as server:
            traded(server)
            seen.opens(page_of(server, OLGA))
            is_right = seen.waits("document.querySelectorAll('#accounts tr').length === 3")
            told = seen.value("document.body.innerText")
            points.look("the page shows the accounts", is_right and all(name in told for name in ("ALFA", "BETA", "GAMMA")), told)
            is_right = seen.value("document.title") == "Boskurige" and "OLGA" in told and "SIZE" in told
            points.look("its title, its user, and what was denied", is_right, told)
            pictures(seen, points)
            money(seen, server, points)
            killed_by_keyboard(seen, points)
            server.desk(OLGA, "lift", "ALFA")
            is_right = seen.waits(f"({ROW % 'ALFA'}).innerText.includes('lifted last at')", 3)
            points.look("a lift from the shell is seen, and by whom", is_right, seen.value(f"({ROW % 'ALFA'}).innerText"))
            goes_on(seen, server, points)
            logged_in_elsewhere(seen, server, points)
            shown_to_others(seen, server, points)
        in_a_flood(seen, gate, folder / "flood", points)
        points.look("no fault was told of", seen.faults() == [], *seen.faults())


def in_a_flood(browser: Browser, gate: str, folder: Path, points: Points) -> None:
    """A kill by the button while 64 traders enter orders all the time."""
    folder.mkdir()
    with serving(gate, folder, flood_policy()) as server, flooding(server.port, TRADERS):
        browser.opens(page_of(server, OLGA))
        is_right = browser.waits("document.querySelectorAll('#accounts tr').length === 3")
        points.look("the page of a server in a flood shows the accounts", is_right, browser.value("document.body.innerText"))
        is_seen, took = killed_here(browser, "ALFA")
        points.look(f"a kill in a flood: KILLED is seen after {took:.2f} s", is_seen, browser.value("document.body.innerText"))
