"""The page in a browser without a window, on a screen and on a telephone."""

from __future__ import annotations

import base64
import functools
import http.server
import json
import threading
import time
from collections.abc import Callable
from typing import Any

from tests import TOP, WEB, Together, wants
from tests.trading import free_port

try:
    from selenium import webdriver
    from selenium.common.exceptions import UnexpectedAlertPresentException, WebDriverException
    from selenium.webdriver.chrome.service import Service
    from selenium.webdriver.common.by import By
    from selenium.webdriver.common.keys import Keys
    from selenium.webdriver.support.ui import Select
except ImportError:
    pass

SHOTS = WEB / "shots"
SCREEN, TELEPHONE = (1280, 800), (390, 844)
FLAGS = ("--headless=new", "--no-sandbox", "--disable-gpu", "--disable-dev-shm-usage")


class Quiet(http.server.SimpleHTTPRequestHandler):
    def log_message(self, *told: object) -> None:
        """Nothing is told."""


def serve_folder() -> http.server.ThreadingHTTPServer:
    """A server of the page's folder on the loopback address."""
    handler = functools.partial(Quiet, directory=str(WEB / "page"))
    server = http.server.ThreadingHTTPServer(("127.0.0.1", 0), handler)
    threading.Thread(target=server.serve_forever, daemon=True).start()
    return server


def open_browser() -> Any:
    options = webdriver.ChromeOptions()
    for flag in FLAGS:
        options.add_argument(flag)
    options.binary_location = "/usr/bin/chromium"
    options.set_capability("goog:loggingPrefs", {"browser": "ALL"})
    service = Service("/usr/bin/chromedriver", free_port())
    browser = webdriver.Chrome(service=service, options=options)
    browser.set_script_timeout(180)
    return browser


class InBrowser(Together):
    """What a reader of a page does."""

    browser: Any

    def resize(self, size: tuple[int, int]) -> None:
        given = {"width": size[0], "height": size[1], "deviceScaleFactor": 1}
        mobile = {"mobile": size == TELEPHONE}
        self.browser.execute_cdp_cmd("Emulation.setDeviceMetricsOverride", {**given, **mobile})
        self.until_true(f"matchMedia('(width: {size[0]}px)').matches")

    def part(self, name: str) -> Any:
        return self.browser.find_element(By.ID, name)

    def text(self, name: str) -> str:
        return str(self.part(name).text)

    def until(self, holds: Callable[[], bool]) -> None:
        """Waits until something holds; it does not yet where the page is loaded or drawn anew just
        now."""
        end = time.monotonic() + 180
        while True:
            try:
                if holds():
                    return
            except UnexpectedAlertPresentException:
                raise
            except WebDriverException:
                pass
            if time.monotonic() > end:
                self.picture("failed")
                self.fail(self.browser.find_element(By.TAG_NAME, "body").text)
            time.sleep(0.05)

    def until_true(self, script: str) -> None:
        """Waits until something is true in the page."""
        self.until(lambda: bool(self.browser.execute_script(f"return {script}")))

    def lead(self, by: str, name: str, part: str) -> None:
        """Clicks on what leads to a part, until that is seen."""

        def is_seen() -> bool:
            seen = [it for it in self.browser.find_elements(By.ID, part) if it.is_displayed()]
            if not seen:
                self.browser.find_element(by, name).click()
            return bool(seen)

        self.until(is_seen)

    def unfold(self, part: str) -> None:
        """Unfolds the tables of a part."""

        def is_unfolded() -> bool:
            tables = self.part(part).find_elements(By.TAG_NAME, "details")
            folded = [it for it in tables if not it.get_attribute("open")]
            for table in folded:
                table.find_element(By.TAG_NAME, "summary").click()
            return bool(tables) and not folded

        self.until(is_unfolded)

    def shot(self, name: str) -> None:
        """The whole page as a picture, and that nothing of it is wider than the screen."""
        self.until_true("document.documentElement.scrollWidth <= innerWidth")
        self.picture(name)

    def picture(self, name: str) -> None:
        script = "return [innerWidth, document.body.scrollHeight]"
        width, height = self.browser.execute_script(script)
        clip = {"x": 0, "y": 0, "width": width, "height": height, "scale": 1}
        given = {"captureBeyondViewport": True, "clip": clip}
        told = self.browser.execute_cdp_cmd("Page.captureScreenshot", given)
        (SHOTS / f"{name}.png").write_bytes(base64.b64decode(told["data"]))


@wants("chromium", "chromedriver", modules=("selenium",))
class Page(InBrowser):
    server: http.server.ThreadingHTTPServer

    @classmethod
    def setUpClass(cls) -> None:
        SHOTS.mkdir(exist_ok=True)
        cls.server = serve_folder()
        cls.addClassCleanup(cls.server.shutdown)
        cls.browser = open_browser()
        cls.addClassCleanup(cls.browser.quit)

    def setUp(self) -> None:
        self.resize(SCREEN)
        self.browser.get(f"http://127.0.0.1:{self.server.server_port}/batch.html")

    def tearDown(self) -> None:
        self.assertEqual(self.browser.get_log("browser"), [])

    # ---- what a reader does

    def is_seen(self, name: str) -> bool:
        return bool(self.part(name).is_displayed())

    def read(self, lines: str) -> None:
        """Pastes lines and reads them."""
        script = "arguments[0].value = arguments[1]"
        self.browser.execute_script(script, self.part("lines"), lines)
        self.part("read").click()

    def recheck(self) -> str:
        self.part("recheck").click()
        self.until(lambda: self.text("verdict")[:1] in ("✓", "✗"))
        return self.text("verdict")

    def batches(self) -> Any:
        return Select(self.part("batches"))

    # ---- tests

    def test_examples_are_drawn_and_rechecked(self) -> None:
        for size, kind in ((SCREEN, "screen"), (TELEPHONE, "telephone")):
            self.resize(size)
            self.browser.refresh()
            self.part("example").click()
            self.until(lambda: self.is_seen("facts"))
            for place in range(len(self.batches().options)):
                self.batches().select_by_index(place)
                self.assertTrue(self.recheck().startswith("✓ Yes"), place)
                drawn = self.browser.find_elements(By.CSS_SELECTOR, "#drawing [data-part]")
                self.assertTrue(drawn)
                self.shot(f"{kind}-{place + 1}")

    def test_each_figure_stands_in_a_table_too(self) -> None:
        self.part("example").click()
        self.until(lambda: self.is_seen("facts"))
        self.unfold("picture-tables")
        told = self.text("picture-tables")
        for row in ("10 -10/7 16/7 10/7", "2 price 12 (1, 12) 4/7 4/7"):
            self.assertIn(row, told)
        self.assertIn("1 1 buy call 10 6 1 1 6", self.text("fill-table"))

    def test_a_changed_number_is_told(self) -> None:
        line = (WEB / "page/example.replies").read_text().splitlines()[0]
        for old, new, told in (
            ('"surplus":"6/7"', '"surplus":"1"', "✗ No: Cover."),
            ('"weight":"4"}', '"weight":"3"}', "✗ No: Bound."),
            ('"price":6,', '"price":6.0,', "✗ No: Shape."),
            ('"batch":1', '"batch": 1', "✗ No: Spelling."),
        ):
            self.read(line.replace(old, new))
            self.assertTrue(self.recheck().startswith(told), new)
            self.assertEqual(
                self.browser.find_elements(By.CSS_SELECTOR, "#step-list li")[-1].text[:1], "✗"
            )
        self.read(line.replace('"surplus":"6/7"', '"surplus":"1"'))
        self.assertEqual(self.recheck(), "✗ No: Cover. What is left is 6/7, and the line says 1.")
        told = "6/7 (≈ 0.8571), 1/7 (≈ 0.1429) less than the surplus."
        self.assertIn(told, self.text("kept"))
        self.shot("screen-no")
        self.resize(TELEPHONE)
        long = f"{'9' * 37}7/{'9' * 37}8"
        self.read(line.replace('"surplus":"6/7"', f'"surplus":"{long}"'))
        self.assertIn(long, self.recheck())
        self.shot("telephone-no")

    def test_keys_alone(self) -> None:
        pressed = webdriver.ActionChains(self.browser)

        def tab_to(name: str) -> None:
            for _ in range(20):
                if self.browser.switch_to.active_element.get_attribute("id") == name:
                    return
                pressed.send_keys(Keys.TAB).perform()
            self.fail(f"no way by keys to {name}")

        tab_to("example")
        pressed.send_keys(Keys.ENTER).perform()
        self.until(lambda: self.is_seen("facts"))
        tab_to("batches")
        pressed.send_keys(Keys.ARROW_DOWN).perform()
        self.until(lambda: "6" in self.text("fact-list").splitlines())
        tab_to("recheck")
        pressed.send_keys(Keys.ENTER).perform()
        self.until(lambda: self.text("verdict").startswith("✓ Yes"))
        self.assertEqual(self.browser.switch_to.active_element.get_attribute("id"), "verdict")
        tab_to("price-0-range")
        pressed.send_keys(Keys.ARROW_RIGHT).perform()
        self.until(lambda: self.text("kept").startswith("At prices 1, 6 the house keeps 6"))

    def test_a_file_is_opened(self) -> None:
        self.part("file").send_keys(str(TOP / "examples/demo.replies"))
        self.until(lambda: "Cleared batches: 3." in self.text("told"))
        self.batches().select_by_index(1)
        self.assertTrue(self.recheck().startswith("✓ Yes"))

    def test_nothing_is_asked_of_others_and_no_text_is_run(self) -> None:
        self.part("example").click()
        self.until(lambda: self.is_seen("facts"))
        self.recheck()
        script = "return performance.getEntriesByType('resource').map(each => each.name)"
        asked = self.browser.execute_script(script)
        own = f"http://127.0.0.1:{self.server.server_port}/"
        self.assertEqual([name for name in asked if not name.startswith((own, "data:"))], [])
        evil = "<img src=x onerror=\"document.title='run'\">"
        line = (WEB / "page/example.replies").read_text().splitlines()[0]
        self.read(line.replace("optimal", json.dumps(evil)[1:-1]))
        self.assertTrue(self.recheck().startswith("✗ No: Shape."))
        self.assertEqual(self.browser.title, "A cleared batch, rechecked here")
