"""Each thing that the page does, in Chromium, with a screenshot of each, at the width of a desk and of a phone."""

from __future__ import annotations

import os
from pathlib import Path
from typing import Any, Iterator
from urllib.parse import quote

import pytest
import tstore
from conftest import Server, make_cafes
from selenium import webdriver
from selenium.webdriver.chrome.options import Options
from selenium.webdriver.chrome.service import Service
from selenium.webdriver.common.by import By
from selenium.webdriver.common.keys import Keys
from selenium.webdriver.support.ui import Select, WebDriverWait

PICTURES = Path(os.environ.get("PICTURES", Path(__file__).parent / "pictures"))
WIDTHS = {"desk": (1280, 900), "phone": (390, 844)}


class Browser:
    """Chromium on a server's pages."""

    def __init__(self, server: Server, scripts: bool = True) -> None:
        options = Options()
        for word in ("--headless=new", "--no-sandbox", "--disable-gpu", "--hide-scrollbars"):
            options.add_argument(word)
        if not scripts:
            options.add_experimental_option("prefs", {"profile.managed_default_content_settings.javascript": 2})
        options.set_capability("goog:loggingPrefs", {"browser": "ALL"})
        self.server = server
        self.driver = webdriver.Chrome(service=Service("/usr/bin/chromedriver"), options=options)
        self.width = "desk"

    def wide(self, width: str) -> None:
        self.width = width
        x, y = WIDTHS[width]
        told = {"width": x, "height": y, "deviceScaleFactor": 1, "mobile": width == "phone"}
        self.driver.execute_cdp_cmd("Emulation.setDeviceMetricsOverride", told)

    def go(self, path: str) -> None:
        self.driver.get(self.server.url + path)

    def all(self, selector: str) -> list[Any]:
        return list(self.driver.find_elements(By.CSS_SELECTOR, selector))

    def one(self, selector: str) -> Any:
        return self.driver.find_element(By.CSS_SELECTOR, selector)

    def text(self, selector: str = "main") -> str:
        return str(self.one(selector).text)

    def click(self, selector: str) -> None:
        """Clicks on what leads to another page."""
        before = self.one("html")
        self.one(selector).click()
        WebDriverWait(self.driver, 20).until(lambda _: self.one("html") != before)

    def click_link(self, words: str) -> None:
        before = self.one("html")
        self.driver.find_element(By.PARTIAL_LINK_TEXT, words).click()
        WebDriverWait(self.driver, 20).until(lambda _: self.one("html") != before)

    def picture(self, name: str) -> None:
        """Keeps a screenshot, and looks that nothing hangs over the page's edge."""
        PICTURES.mkdir(exist_ok=True)
        self.driver.save_screenshot(str(PICTURES / f"{name}-{self.width}.png"))
        assert self.driver.execute_script("return document.documentElement.scrollWidth <= innerWidth"), name

    def faults(self) -> list[str]:
        """What the browser complained of, but for a page's own status."""
        return [it["message"] for it in self.driver.get_log("browser") if "the server responded with a status" not in it["message"]]


@pytest.fixture(scope="module")
def server(tmp_path_factory: Any) -> Iterator[Server]:
    folder = tmp_path_factory.mktemp("page") / "cafes"
    make_cafes(folder)
    with tstore.open(folder) as store:
        store.new_label("draft")
        draft = store.commit("00000001", "<http://example.org/mokka> <https://schema.org/seats> <u:many> .\n")
        store.set_label(
            "draft", 0, store.commit(draft, "\n".join(f"<http://example.org/x{it}> <u:number> <u:{it}> ." for it in range(180)) + "\n")
        )
        seats = "<http://example.org/mokka> <https://schema.org/seats> "
        number = "^^<http://www.w3.org/2001/XMLSchema#integer>"
        last = store.commit("00000002", "<u:other> <u:b> <u:c> .\n")
        last = store.commit(last, f'- {seats}"22"{number} .\n{seats}"24"{number} .\n')
        store.set_label("main", 1, last)
    server = Server(folder, "--seconds", "20")
    yield server
    server.end()


@pytest.fixture(scope="module")
def browser(server: Server) -> Iterator[Browser]:
    browser = Browser(server)
    yield browser
    browser.driver.quit()


@pytest.fixture(params=list(WIDTHS), autouse=True)
def width(request: Any, browser: Browser) -> Iterator[str]:
    browser.wide(request.param)
    yield request.param
    assert not browser.faults()


def test_history(browser: Browser) -> None:
    browser.go("/")
    assert len(browser.all("svg.lanes circle.dot")) == len(browser.all("ol.layers li")) == 6
    assert len(browser.all("svg.lanes path.lane")) == 5
    assert {it.get_attribute("cx") for it in browser.all("circle.dot")} == {"14", "32"}
    assert browser.all("svg.bars rect.come") and browser.all("svg.bars rect.gone")
    first = browser.one("ol.layers li")
    assert "00000006" in first.text and "main" in first.text and "−1" in first.text and "+1" in first.text
    browser.picture("history")
    browser.one("ol.layers li a").click()
    assert "00000006" in browser.text("h1")


def test_layer(browser: Browser) -> None:
    browser.go("/layers/00000002")
    assert len(browser.all("tr.come")) == 1 and len(browser.all("tr.gone")) == 7
    assert "<script>alert(1)</script>" in browser.text("tr.come")
    browser.picture("layer")
    browser.click_link("added")
    assert "1 triple" in browser.text(".count")
    browser.picture("added")


def test_triples_by_pattern_and_in_pages(browser: Browser) -> None:
    browser.go("/labels/draft/graph")
    assert len(browser.all("table.triples tbody tr")) == 50 and "1–50 of 258" in browser.text(".turns")
    browser.picture("triples")
    seen = set()
    while True:
        seen |= {it.text for it in browser.all("table.triples tbody tr")}
        if not browser.all("a[rel=next]"):
            break
        browser.click("a[rel=next]")
    assert len(seen) == 258
    browser.go("/labels/draft/graph")
    browser.one("input[name=p]").send_keys("https://schema.org/seats")
    browser.click("form.pattern button")
    assert "9 triples that fit" in browser.text(".count") and len(browser.all("table.triples tbody tr")) == 9
    assert "s=" not in browser.driver.current_url
    browser.picture("pattern")


def test_each_term_leads_to_its_triples(browser: Browser) -> None:
    browser.go("/labels/main/graph?s=http://example.org/bellevue")
    browser.click_link("aurora")
    assert browser.one("input[name=s]").get_attribute("value") == "<http://example.org/aurora>"
    places = [it.text for it in browser.all(".places a")]
    assert places[0].startswith("as subject") and places[-1] == "over time"
    browser.click_link("as object")
    assert len(browser.all("table.triples tbody tr")) == 1
    browser.picture("term")
    browser.go("/labels/main/graph?s=http://example.org/odd")
    browser.click_link("seven")
    assert len(browser.all("table.triples tbody tr")) == 1 and browser.one("input[name=o]").get_attribute("value") == '"seven"'
    # What a graph says is no address here.
    browser.go("/labels/main/graph?s=http://example.org/odd")
    browser.click_link("alert(1)")
    assert browser.driver.current_url.startswith(browser.server.url)


def test_difference(browser: Browser) -> None:
    browser.go("/compare")
    Select(browser.one("select[name=from]")).select_by_value("00000001")
    Select(browser.one("select[name=to]")).select_by_value("@main")
    browser.click("form.versions button")
    assert len(browser.all("tr.gone")) == 8 and len(browser.all("tr.come")) == 3
    browser.picture("difference")
    browser.go("/compare?from=@draft&to=@main")
    assert "−189" in browser.text(".count") and "+3" in browser.text(".count")
    browser.go("/compare?from=@main&to=@main")
    assert "the same triples" in browser.text(".empty")


def test_a_subject_over_time(browser: Browser) -> None:
    browser.go("/labels/main/graph?s=http://example.org/mokka")
    browser.click_link("over time")
    heads = [it.text.split()[0] for it in browser.all(".version-of h2")]
    assert heads == ["00000006", "00000001"]
    first = browser.one(".version-of")
    assert "24" in first.find_element(By.CSS_SELECTOR, "tr.come").text and "22" in first.find_element(By.CSS_SELECTOR, "tr.gone").text
    browser.picture("subject")


def test_sparql(browser: Browser) -> None:
    browser.go("/labels/main/sparql")
    box = browser.one("textarea")
    box.clear()
    box.send_keys("PREFIX s: <https://schema.org/> SELECT ?cafe ?name WHERE { ?cafe a s:Cafe ; s:name ?name } ORDER BY ?cafe")
    before = browser.one("html")
    box.send_keys(Keys.CONTROL, Keys.ENTER)
    WebDriverWait(browser.driver, 20).until(lambda _: browser.one("html") != before)
    assert "5 rows" in browser.text(".count")
    assert [it.text for it in browser.all("table.answer tbody td:first-child")][0].endswith("aurora")
    browser.picture("sparql")
    browser.click("table.answer a.term")
    assert "aurora" in browser.one("input[name=s]").get_attribute("value")
    for query, selector, words in (
        ("ASK { }", ".verdict", "Yes"),
        ("CONSTRUCT WHERE { ?s <https://schema.org/near> ?o }", ".count", "6 rows"),
        ("SELECT ?a WHERE {", ".problem", "malformed"),
        ("SELECT * { SERVICE <u:x> { } }", ".problem", "SERVICE"),
    ):
        browser.go("/labels/main/sparql?query=" + quote(query))
        assert words in browser.text(selector), query
    browser.picture("sparql-problem")
    browser.go("/layers/00000001/sparql")
    browser.click_link("Predicates by use")
    assert len(browser.all("table.answer tbody tr")) > 10


def test_labels_and_problems(browser: Browser) -> None:
    browser.go("/labels")
    assert len(browser.all("table.plain tbody tr")) == 4
    browser.picture("labels")
    browser.click_link("100%#?&+'x")
    assert "version 1" in browser.text("h1")
    browser.go("/layers/00000099/graph")
    assert "404" in browser.text("h1") and "no layer" in browser.text(".problem")
    browser.picture("problem")


def test_no_script_and_no_style_within(browser: Browser, width: str) -> None:
    """The policy lets no text of the graph run, and the page itself needs none of what it forbids."""
    browser.go("/labels/main/graph?s=http://example.org/new")
    assert "<script>alert(1)</script>" in browser.text("table.triples")
    assert browser.driver.execute_script("return getComputedStyle(document.querySelector('.top')).display") == "flex"
    made = "const it = document.createElement('script'); it.textContent = 'window.ran = 1'; document.body.append(it); return window.ran"
    assert browser.driver.execute_script(made) is None
    assert any("Content Security Policy" in it for it in browser.faults())


def test_it_is_whole_without_scripts(server: Server, width: str) -> None:
    if width != "desk":
        return
    plain = Browser(server, scripts=False)
    try:
        plain.wide("desk")
        plain.go("/")
        assert len(plain.all("ol.layers li")) == 6
        plain.go("/labels/main/sparql")
        plain.click("form.query button")
        assert "10 rows" in plain.text(".count")
        plain.go("/labels/main/graph")
        plain.one("input[name=p]").send_keys("https://schema.org/near")
        plain.click("form.pattern button")
        assert "6 triples" in plain.text(".count")
        plain.picture("without-scripts")
    finally:
        plain.driver.quit()
