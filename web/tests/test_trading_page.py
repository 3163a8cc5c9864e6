"""The page of members in a browser without a window: the butterfly from login to recheck."""

from __future__ import annotations

import contextlib
from collections.abc import Callable
from typing import Any

from tests import wants
from tests.test_page import SCREEN, SHOTS, TELEPHONE, InBrowser, open_browser, serve_folder
from tests.trading import IS_SKIPPED, SECRET, Trading

if not IS_SKIPPED:
    from ragvismo_gateway.members import Members
    from ragvismo_gateway.members_file import FILE

try:
    from selenium.common.exceptions import WebDriverException
    from selenium.webdriver import ActionChains
    from selenium.webdriver.common.by import By
    from selenium.webdriver.common.keys import Keys
    from selenium.webdriver.support.ui import Select
except ImportError:
    pass


@wants("chromium", "chromedriver", modules=("selenium",))
class TradingPage(InBrowser, Trading):
    @classmethod
    def setUpClass(cls) -> None:
        super().setUpClass()
        SHOTS.mkdir(exist_ok=True)
        cls.say(ana="open,101 open,111", eva="open,103")
        deposits = " ".join(f"deposit,{account},1000" for account in (101, 103, 111))
        cls.say(operator=f"market,1,1 market,2,2 {deposits}")
        cls.browser = open_browser()
        cls.addClassCleanup(cls.browser.quit)

    def setUp(self) -> None:
        self.resize(SCREEN)

    # ---- what a member does

    def login(self, name: str, secret: str = SECRET) -> None:
        self.browser.get("about:blank")
        self.browser.execute_cdp_cmd("Network.clearBrowserCookies", {})
        self.browser.get(f"http://127.0.0.1:{self.port}/")
        self.until(lambda: bool(self.part("login").is_displayed()))
        self.part("name").send_keys(name)
        self.part("password").send_keys(secret + Keys.ENTER)

    def enter(self, name: str) -> None:
        self.login(name)
        # Where no follower answers in time, that is told too.
        self.until(lambda: self.text("line-state").startswith("connected"))
        self.until(lambda: "live orders" in self.text("market"))

    def view(self, name: str) -> None:
        self.lead(By.CSS_SELECTOR, f'nav a[href="#{name}"]', name)

    def field(self, section: str, name: str) -> Any:
        path = f"//section[@id='{section}']//label[text()='{name}']/following-sibling::*"
        return self.browser.find_element(By.XPATH, path)

    def set(self, section: str, **values: str) -> None:
        for name, value in values.items():
            field = self.field(section, name.replace("_", " "))
            if field.tag_name == "select":
                Select(field).select_by_visible_text(value)
            else:
                field.clear()
                field.send_keys(value)

    def choose(self, place: int) -> None:
        """Looks at a market, by its place among all."""

        def is_chosen() -> bool:
            Select(self.field("market", "Market")).select_by_index(place)
            return True

        self.until(is_chosen)

    def order(self, side: str, strike: str, price: str) -> None:
        """Sends the order for a put."""
        self.view("ticket")
        self.set("ticket", Side=side, Kind="put")
        self.set("ticket", Strike=strike, Limit_price=price)
        line = self.text("ticket-line")
        self.press("ticket", "Send the order")
        self.until(lambda: self.text("told") == f"✓ {line}: placed.")

    def press(self, section: str, name: str) -> None:
        """Presses a button once, by a key: what is told above may move it away from a mouse."""
        path = f"//section[@id='{section}']//button[text()='{name}']"
        self.browser.find_element(By.XPATH, path).send_keys(Keys.ENTER)

    # ---- tests

    def test_the_butterfly(self) -> None:
        self.enter("eva")
        self.order("sell", "5", "1")
        self.order("sell", "12", "6")
        self.enter("ana")
        self.order("buy", "10", "5")
        self.shot("ticket")
        self.view("market")
        self.until(lambda: "★ mine: 101" in self.text("book"))
        self.assertEqual(self.text("book").count("put"), 3)
        self.assertNotIn("103", self.text("book"))
        self.shot("market")
        self.enter("operator")
        self.view("operator")
        self.until(lambda: "eva" in self.text("members"))
        for field, value in (("Market", "1"), ("Budget of units", "100")):
            self.set_in("Clear", field, value)
        self.press("operator", "Clear")
        self.until(lambda: self.text("told") == "✓ clear,1,100: cleared.")
        self.shot("operator")
        self.enter("ana")
        self.view("batches")
        self.until(lambda: "3/7" in self.text("batch-list"))
        self.shot("batches")
        self.view("account")
        self.until(lambda: "995" in self.text("balances") and "put 10" in self.text("positions"))
        self.shot("account")
        self.resize(TELEPHONE)
        for view in ("market", "ticket", "batches", "account"):
            self.view(view)
            self.shot(f"telephone-{view}")
        self.resize(SCREEN)
        self.view("batches")
        self.lead(By.PARTIAL_LINK_TEXT, "Recheck batch", "recheck")
        self.part("recheck").click()
        self.until(lambda: self.text("verdict").startswith("✓ Yes"))
        self.shot("batch")

    def set_in(self, form: str, name: str, value: str) -> None:
        path = f"//button[text()='{form}']/..//label[text()='{name}']/following-sibling::input"
        field = self.browser.find_element(By.XPATH, path)
        field.clear()
        field.send_keys(value)

    def test_a_ticket_is_said_and_drawn(self) -> None:
        self.enter("ana")
        self.view("ticket")
        self.set("ticket", Strike="11", Kind="butterfly")
        # What is told of the call, which was asked before, is not said of the butterfly.
        names = "performance.getEntriesByType('resource').map(each => each.name)"
        self.until_true(f"{names}.some(each => each.endsWith('/try/1/buy/6/1/call,11,1'))")
        alone = "What would be filled now is told of single options alone."
        self.assertEqual(self.text("ticket-try"), alone)
        said = "Buy 1 of: +1 call 8, −2 call 10, +1 call 12, for at most 6 each."
        self.assertIn(said, self.text("ticket-says"))
        line = "bundle,101,1,buy,6,1,3,1,call,8,1,-2,call,10,1,1,call,12,1"
        self.assertEqual(self.text("ticket-line"), line)
        self.unfold("ticket")
        self.assertIn("8 -6\n10 -4\n12 -6", self.text("ticket"))
        self.set("ticket", Strike="nine")
        self.assertEqual(self.text("ticket-says"), "Each field is a whole number.")
        self.assertFalse(self.part("ticket-send").is_enabled())
        self.shot("ticket-butterfly")
        self.resize(TELEPHONE)
        self.set("ticket", Kind="bundle of four")
        self.assertIn("bundle,101,1,buy,6,1,4", self.text("ticket-line"))
        self.shot("telephone-ticket-bundle")

    def test_a_closed_market(self) -> None:
        self.say(operator="market,3,1", ana="buy,101,3,call,10,1,1,1")
        self.enter("operator")
        self.view("operator")
        self.set_in("Close", "Market", "3")
        self.press("operator", "Close")
        self.until(lambda: self.text("told") == "✓ close,3: closed.")
        self.enter("ana")
        self.choose(2)
        self.until(lambda: self.text("phase").startswith("Closed"))
        self.until(lambda: "★ mine: 101" in self.text("book"))
        self.assertNotIn("Cancel", self.text("book"))
        self.shot("closed")
        self.view("ticket")
        self.until(lambda: self.text("ticket-says") == "Market 3 is closed: it takes no orders.")
        self.assertFalse(self.part("ticket-send").is_enabled())

    def test_two_underlyings(self) -> None:
        self.enter("ana")
        self.choose(1)
        self.view("ticket")
        self.until(lambda: "Weight of S2" in self.text("ticket"))
        self.set("ticket", Weight_of_S2="-1")
        self.assertIn("call 10 on S1 − S2", self.text("ticket-says"))
        self.assertTrue(self.text("ticket-line").startswith("buy,101,2,call,10,6,1,1,-1"))
        self.shot("ticket-two")

    def test_a_strike_is_dragged(self) -> None:
        """What the market asks is told and drawn."""
        self.say(operator="market,4,1", eva="sell,103,4,put,12,6,2,1")
        self.enter("ana")
        self.choose(self.place_of(4))
        self.until(lambda: "It is asked at 7, and nobody buys it." == self.text("implied"))
        self.until(lambda: bool(self.depth("buy-7")))
        self.unfold("depth")
        self.until(lambda: "buy 7 2" in self.text("depth"))
        self.shot("implied")
        self.part("strike-range").send_keys(Keys.ARROW_RIGHT)
        self.until(lambda: "asked at 8" in self.text("implied"))
        strike = self.field("market", "Strike")
        self.assertEqual(strike.get_attribute("value"), "13")
        strike.send_keys(Keys.BACKSPACE * 2)
        self.assertEqual(self.text("implied"), "Each field is a whole number.")
        strike.send_keys("13")
        self.until(lambda: "asked at 8" in self.text("implied"))

    def depth(self, part: str) -> Any:
        path = f'#depth:not([hidden]) [data-part^="{part}"]'
        return self.browser.find_elements(By.CSS_SELECTOR, path)

    def tables(self) -> Any:
        return self.browser.find_elements(By.CSS_SELECTOR, "#market details")

    def place_of(self, market: int) -> int:
        """The place of a market among all that can be chosen."""
        told = self.visitor("ana").get("/markets")["markets"]
        return [it["market"] for it in told].index(market)

    def test_a_ticket_tells_what_it_needs(self) -> None:
        """Before it is sent, as the exchange tells it afterwards; and what would be filled."""
        self.say(operator="market,7,1", eva="buy,103,7,put,12,7,2,1")
        self.enter("ana")
        self.choose(self.place_of(7))
        self.view("ticket")
        self.set("ticket", Kind="put", Side="sell")
        self.set("ticket", Strike="12", Limit_price="6", Quantity="3")
        self.until(lambda: "2 of 3 would be filled" in self.text("ticket-try"))
        self.until(lambda: self.text("ticket-need") != "")
        told = self.text("ticket-need")
        self.shot("ticket-need")
        self.press("ticket", "Send the order")
        self.until(lambda: self.text("told").endswith("placed."))
        need = self.visitor("ana").get("/need/101")["need"]
        self.assertEqual(told, f"With it account 101 needs {need} of its 1000 ticks.")
        self.set("ticket", Quantity="1000")
        self.until(lambda: "too much: it would be refused" in self.text("ticket-need"))
        self.press("ticket", "Send the order")
        said = "refused, since the account could not bear it: it would need"
        self.until(lambda: said in self.text("told"))

    def test_another_account(self) -> None:
        """No way by the page; and another page has none by this one's login."""
        before = self.visitor("ana").get("/balance/111")
        self.enter("eva")
        self.view("account")
        self.set_in("Withdraw", "Account", "111")
        self.set_in("Withdraw", "Ticks", "7")
        self.press("account", "Withdraw")
        self.until(lambda: self.text("told") == "✗ withdraw,111,7: account 111 is not yours")
        self.enter("ana")
        other = serve_folder()
        self.addCleanup(other.shutdown)
        self.browser.get(f"http://127.0.0.1:{other.server_port}/batch.html")
        given = {"method": "POST", "body": "withdraw,111,7", "credentials": "include"}
        script = (
            "const [place, given, done] = arguments; fetch(place, given).then("
            "() => done('sent'), () => done('failed'))"
        )
        for mode in ("cors", "no-cors"):
            place = f"http://127.0.0.1:{self.port}/lines"
            self.browser.execute_async_script(script, place, {**given, "mode": mode})
        self.assertEqual(self.visitor("ana").get("/balance/111")["balance"], before["balance"])

    def test_a_lost_redis(self) -> None:
        self.enter("ana")
        self.view("account")
        self.set_in("Withdraw", "Account", "111")
        self.set_in("Withdraw", "Ticks", "3")
        self.kill("redis")
        self.press("account", "Withdraw")
        self.until(lambda: "sent" in self.text("told"))
        self.start("redis")
        self.until(lambda: self.text("told") == "✓ withdraw,111,3: withdrawn.")
        history = self.visitor("ana").get("/history")["lines"]
        self.assertEqual([it["line"] for it in history].count("withdraw,111,3"), 1)

    def test_no_follower(self) -> None:
        """What all may see is shown all the same, and that the rest may be old."""
        self.say(operator="market,8,1")
        self.kill("follower")
        self.addCleanup(self.start, "follower")
        self.say(ana="withdraw,111,1")
        self.enter("ana")
        self.choose(self.place_of(8))
        self.until(lambda: "There are none." in self.text("book"))
        self.say(eva="sell,103,8,put,12,6,2,1")
        self.until(lambda: "put 12" in self.text("book"))
        self.view("account")
        self.assertNotIn("you hold nothing", self.text("positions"))
        self.until(lambda: "no follower answers" in self.text("line-state"))
        self.start("follower")
        self.until(lambda: self.text("line-state") == "connected")
        self.until(lambda: "you hold nothing" in self.text("positions"))

    def test_two_clicks_log_in_once(self) -> None:
        self.login("ana", "")
        self.part("password").send_keys(SECRET)
        script = """
            const [ask, asked] = [window.fetch, []];
            window.fetch = (path, more) => { asked.push(path); return ask(path, more); };
            const button = document.querySelector("#login-form button");
            button.click();
            button.click();
            return asked;"""
        self.assertEqual(self.browser.execute_script(script), ["login"])
        self.until(lambda: "live orders" in self.text("market"))
        self.assertEqual(len(self.browser.find_elements(By.ID, "book")), 1)

    def test_keys_alone(self) -> None:
        pressed = ActionChains(self.browser)
        self.enter("ana")

        def tab_to(holds: Callable[[Any], bool]) -> None:
            for _ in range(40):
                try:
                    if holds(self.browser.switch_to.active_element):
                        return
                except WebDriverException:
                    # It is drawn anew just now.
                    continue
                pressed.send_keys(Keys.TAB).perform()
            self.fail("no way by keys")

        tab_to(lambda it: bool(it.text == "Ticket"))
        pressed.send_keys(Keys.ENTER).perform()
        self.until(lambda: bool(self.part("ticket").is_displayed()))
        tab_to(lambda it: bool(it.get_attribute("id") == "ticket-send"))
        pressed.send_keys(Keys.ENTER).perform()
        self.until(lambda: self.text("told").startswith("✓"))
        self.until(lambda: "★ mine" in str(self.part("book").get_attribute("textContent")))
        self.view("market")
        tab_to(lambda it: bool(it.text == "Cancel"))
        pressed.send_keys(Keys.ENTER).perform()
        self.until(lambda: self.text("told").endswith("cancelled."))

    def test_a_lost_gateway(self) -> None:
        self.enter("ana")
        self.view("account")
        self.kill("gateway")
        self.until(lambda: self.text("line-state").startswith("connection lost"))
        for line in ("withdraw,111,7", "withdraw,111,9"):
            self.set_in("Withdraw", "Account", "111")
            self.set_in("Withdraw", "Ticks", line[-1])
            self.press("account", "Withdraw")
            self.until(lambda: f"{line}: no answer yet" in self.text("told"))
        self.assertIn("counts once", self.text("told"))
        self.shot("lost")
        self.browser.refresh()
        self.start("gateway")
        self.browser.get(f"http://127.0.0.1:{self.port}/#account")
        self.until(lambda: self.text("told") == "✓ withdraw,111,9: withdrawn.")
        self.until(lambda: self.text("line-state") == "connected")
        history = [it["line"] for it in self.visitor("ana").get("/history")["lines"]]
        told = [history.count(line) for line in ("withdraw,111,7", "withdraw,111,9")]
        self.assertEqual(told, [1, 1])

    def test_a_login_that_ends(self) -> None:
        """By another password: the page asks for a login, and does not wait for a connection."""
        self.enter("ben")
        leave = self.browser.find_element(By.XPATH, "//button[text()='Log out']")
        Members(self.folder / FILE).change("ben", SECRET)
        # It is gone where the page has noticed by itself.
        with contextlib.suppress(WebDriverException):
            leave.click()
        self.until(lambda: bool(self.part("login").is_displayed()))
        self.enter("ben")
        Members(self.folder / FILE).change("ben", SECRET)
        self.say(ana="withdraw,111,1")
        self.until(lambda: bool(self.part("login").is_displayed()))

    def test_what_a_reader_set_stays(self) -> None:
        """Whatever others do meanwhile, and where no follower answers for a while: tables stay
        unfolded, and a link has the focus."""
        self.say(operator="market,9,1", eva="sell,103,9,put,12,6,2,1")
        self.say(operator="clear,9,100 clear,9,100")
        self.say(eva="sell,103,9,put,12,6,2,1")
        self.enter("ana")
        self.choose(self.place_of(9))
        self.until(lambda: "put 12" in self.text("book") and bool(self.depth("buy-7")))
        self.until(lambda: len(self.tables()) == 2)
        self.unfold("market")
        self.kill("follower")
        self.addCleanup(self.start, "follower")
        self.say(ana="buy,111,9,put,11,1,1,1")
        self.until(lambda: "★ mine: 111" in self.text("book"))
        self.until(lambda: "no follower answers" in self.text("implied"))
        self.start("follower")
        self.until(lambda: bool(self.depth("sell")))
        self.until(lambda: [it.get_attribute("open") for it in self.tables()] == ["true"] * 2)
        self.view("batches")
        link = self.browser.find_element(By.CSS_SELECTOR, "#batch-list a")
        told = link.text
        self.browser.execute_script("arguments[0].focus()", link)
        self.say(operator="clear,9,100")
        second = "#batch-list tbody tr:nth-child(2) a"
        self.until(lambda: bool(self.browser.find_element(By.CSS_SELECTOR, second).text == told))
        self.assertEqual(self.browser.switch_to.active_element.text, told)

    def test_a_batch_that_is_not_told(self) -> None:
        """Why is said: nobody is logged in, or there is none such."""
        place = f"http://127.0.0.1:{self.port}/batch.html#99999"
        self.enter("ana")
        self.browser.get(place)
        told = "Batch 99999 is not read: the answer has status 404."
        self.until(lambda: self.text("told") == told)
        self.browser.execute_cdp_cmd("Network.clearBrowserCookies", {})
        self.browser.refresh()
        self.until(lambda: self.text("told") == "Batch 99999 is not read: log in first.")
        self.assertFalse(self.part("facts").is_displayed())

    def test_a_wrong_password(self) -> None:
        self.login("ben", "wrong")
        self.until(lambda: self.text("login-told") == "no member has this name and password")
        self.login("<script>alert(1)</script>", "wrong")
        self.until(lambda: self.text("login-told") == "no member has this name and password")
        self.shot("login")
