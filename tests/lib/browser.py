"""A headless Chromium that Selenium controls, its windows, and the keyboard."""
from __future__ import annotations

import contextlib
import os
import shutil
import tempfile
from typing import Any, Iterator

import pytest

from base import wait_until

with contextlib.suppress(ModuleNotFoundError):
    from selenium import webdriver
    from selenium.webdriver.chrome.service import Service

ENTER, TAB, SHIFT = "\ue007", "\ue004", "\ue008"
# Collects what goes wrong in a page: errors that nobody handles, and what its Content-Security-Policy blocks.
COLLECT = """
window.troubles = [];
addEventListener('error', ({ message }) => message && troubles.push(message));
addEventListener('unhandledrejection', ({ reason }) => troubles.push(String(reason)));
document.addEventListener('securitypolicyviolation', (it) => troubles.push(`blocked: ${it.violatedDirective} ${it.blockedURI}`));
"""
# Returns the name of the element with the focus, and whether an outline shows the focus.
FOCUS = """
const it = document.activeElement, style = getComputedStyle(it);
return [it.id || it.textContent, it.matches(':focus-visible') && style.outlineStyle !== 'none' && parseFloat(style.outlineWidth) >= 2];
"""


def missing_package() -> str | None:
    """Returns the first of Debian's packages that a browser needs and that is not installed, or `None`."""
    found = {
        "chromium": shutil.which("chromium"),
        "chromium-driver": shutil.which("chromedriver"),
        "python3-selenium": "webdriver" in globals(),
    }
    return next((it for it, is_there in found.items() if not is_there), None)


class Browser:
    """A headless Chromium. `folder`: the folder for its profile and its driver's log."""

    def __init__(self, folder: object) -> None:
        options = webdriver.ChromeOptions()
        options.accept_insecure_certs = True
        # Only names of loopback are resolved, so that the browser connects to no other machine.
        arguments = ["--headless=new", "--disable-gpu", "--no-first-run", "--disable-background-networking", "--disable-component-update"]
        arguments += [f"--user-data-dir={folder}/profile", "--host-resolver-rules=MAP * ~NOTFOUND, EXCLUDE 127.0.0.1, EXCLUDE localhost"]
        for it in arguments + (["--no-sandbox"] if os.geteuid() == 0 else []):
            options.add_argument(it)
        service = Service(str(shutil.which("chromedriver")), log_path=f"{folder}/driver.log", env={**os.environ, "TMPDIR": str(folder)})
        self.driver = webdriver.Chrome(service=service, options=options)
        # The first window stays open, because a new window can only be requested from an open one.
        self.first = self.driver.current_window_handle


@contextlib.contextmanager
def browsing() -> Iterator[Browser]:
    """A `Browser`, which ends with the block. Skips the test if a package is missing."""
    if missing_package():
        pytest.skip(f"there is no {missing_package()}")
    # The path is short, since sockets are in the folder.
    with tempfile.TemporaryDirectory(prefix="gadzilk-browser-") as folder:
        browser = Browser(folder)
        try:
            yield browser
        finally:
            browser.driver.quit()


class Window:
    """A window of the browser at `address`. `width` and `height`: pixels."""

    def __init__(self, browser: Browser, address: str, width: int = 860, height: int = 1010) -> None:
        self.browser = browser
        browser.driver.switch_to.new_window("window")
        self.handle = browser.driver.current_window_handle
        self.size = {"width": width, "height": height}
        self.show()
        self.command("Page.addScriptToEvaluateOnNewDocument", source=COLLECT)
        self.driver.get(address)

    @property
    def driver(self) -> Any:
        """The driver, whose commands go to this window."""
        if self.browser.driver.current_window_handle != self.handle:
            self.browser.driver.switch_to.window(self.handle)
        return self.browser.driver

    def command(self, name: str, **parameters: object) -> Any:
        """Sends a command of the Chrome DevTools Protocol."""
        return self.driver.execute_cdp_cmd(name, parameters)

    def run(self, script: str, *arguments: object) -> Any:
        """Runs `script` in the page, and returns its result."""
        return self.driver.execute_script(script, *arguments)

    def text(self, selector: str) -> str:
        """Returns the texts of all elements that match `selector`, without space between them."""
        return "".join(self.texts(selector))

    def texts(self, selector: str) -> list[str]:
        """Returns the text of each element that matches `selector`."""
        return self.run("return [...document.querySelectorAll(arguments[0])].map((it) => it.textContent)", selector)

    def element(self, selector: str) -> Any:
        return self.driver.find_element("css selector", selector)

    def click(self, selector: str) -> None:
        self.element(selector).click()

    def write(self, selector: str, text: str) -> None:
        self.element(selector).send_keys(text)

    def press(self, *keys: str) -> None:
        """Presses `keys` one after another. The element with the focus gets them."""
        webdriver.ActionChains(self.driver).send_keys(*keys).perform()

    def press_back(self) -> None:
        """Presses Shift+Tab."""
        webdriver.ActionChains(self.driver).key_down(SHIFT).send_keys(TAB).key_up(SHIFT).perform()

    def focus(self) -> str | None:
        """Returns the id of the element with the focus, or its text if it has none. `None` if no outline shows the focus."""
        name, is_shown = self.run(FOCUS)
        return name if is_shown else None

    def wait_state(self, state: str) -> None:
        wait_until(f"the page is {state}", lambda: self.run("return document.getElementById('state').className") == state)

    def hide(self) -> None:
        self.driver.minimize_window()

    def show(self) -> None:
        self.driver.set_window_rect(**self.size)

    def emulate(self, width: int = 0, height: int = 0, scheme: str = "") -> None:
        """Shows the page on a screen of `width` by `height` pixels, in light or dark colors. Without arguments, ends this.

        `scheme`: "light" or "dark". Transitions have ended on return.
        """
        self.command("Emulation.setDeviceMetricsOverride", width=width, height=height, deviceScaleFactor=1, mobile=False)
        self.command("Emulation.setEmulatedMedia", features=[{"name": "prefers-color-scheme", "value": scheme}])
        self.run("document.getAnimations().forEach((it) => it.finish())")

    def close(self) -> None:
        self.driver.close()
        self.browser.driver.switch_to.window(self.browser.first)
