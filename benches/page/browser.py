"""A browser without a window, for the scripts beside this: Debian's chromium and chromium-driver, by python3-selenium."""
import base64

from selenium import webdriver
from selenium.webdriver.chrome.options import Options
from selenium.webdriver.chrome.service import Service


def opened():
    """A browser."""
    words = Options()
    for word in ("--headless=new", "--no-sandbox", "--disable-gpu", "--hide-scrollbars", "--disable-dev-shm-usage"):
        words.add_argument(word)
    words.set_capability("goog:loggingPrefs", {"browser": "ALL"})
    return webdriver.Chrome(options=words, service=Service("/usr/bin/chromedriver"))


def shown(browser, page, wide, high, dark=False):
    """Loads a page at a width, in light or in dark, and gives how far it scrolls to the side."""
    browser.execute_cdp_cmd("Emulation.setDeviceMetricsOverride", {"width": wide, "height": high, "deviceScaleFactor": 1, "mobile": wide < 600})
    scheme = "dark" if dark else "light"
    browser.execute_cdp_cmd("Emulation.setEmulatedMedia", {"media": "screen", "features": [{"name": "prefers-color-scheme", "value": scheme}]})
    browser.get(page.as_uri())
    return browser.execute_script("return document.documentElement.scrollWidth - document.documentElement.clientWidth")


def picture(browser, path, high=None):
    """A picture of what is shown, or of the page's first points of height."""
    words = {"format": "png", "captureBeyondViewport": True}
    if high:
        wide = browser.execute_script("return document.documentElement.clientWidth")
        words["clip"] = {"x": 0, "y": 0, "width": wide, "height": high, "scale": 1}
    path.write_bytes(base64.b64decode(browser.execute_cdp_cmd("Page.captureScreenshot", words)["data"]))


def printed(browser, path):
    """The page on paper, as the page itself asks for it."""
    browser.execute_cdp_cmd("Emulation.setEmulatedMedia", {"media": "", "features": []})
    paper = browser.execute_cdp_cmd("Page.printToPDF", {"preferCSSPageSize": True, "printBackground": True})
    path.write_bytes(base64.b64decode(paper["data"]))


def faults(browser):
    """What the page's scripts and styles complained of."""
    return [entry["message"] for entry in browser.get_log("browser") if entry["level"] == "SEVERE"]
