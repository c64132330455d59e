"""Tries the pages of `show` and the page of `page` in headless Chromium, and the pictures by
rsvg-convert: for `tools/try_show`, which brings both."""
from __future__ import annotations

import json
import shutil
import signal
import subprocess
import sys
import time
import unittest
from collections.abc import Callable
from pathlib import Path
from typing import Any
from xml.etree import ElementTree as Xml

from drawn import HOSTILE, KINDS
from support import EXAMPLES, FAULTY, SCORE, InFolder, command, has, scores_of_tables
from test_font import GRECILIAE

from gregorio_chant.pictures.drawing import draw
from gregorio_chant.pictures.look import Look
from gregorio_chant.pictures.outlines import SQUARE, Face
from gregorio_chant.pictures.page import leading_to
from gregorio_chant.pictures.plain import PlainFace

# How long what a test waits for may take, in seconds.
MOST_TIME = 120.0


def browser() -> Any:
    """Returns a browser without a window, which keeps a log of its console and of its requests."""
    from selenium import webdriver
    from selenium.webdriver.chrome.service import Service

    options: Any = webdriver.ChromeOptions()
    # The name localhost.example leads to this machine, as any name of the web may.
    for word in (
        "--headless=new",
        "--no-sandbox",
        "--disable-gpu",
        "--window-size=1000,700",
        "--disable-dev-shm-usage",
        "--host-resolver-rules=MAP localhost.example 127.0.0.1",
    ):
        options.add_argument(word)
    options.binary_location = shutil.which("chromium") or ""
    options.set_capability("goog:loggingPrefs", {"browser": "ALL", "performance": "ALL"})
    return webdriver.Chrome(service=Service(shutil.which("chromedriver") or ""), options=options)


@unittest.skipUnless(
    has("selenium") and shutil.which("chromium") and shutil.which("chromedriver"),
    "there is no Chromium, no driver of it, or no selenium",
)
class Browsing(InFolder):
    """Tests with one browser, which each begins anew. `here` begins the addresses that it may ask
    for."""

    here = ""
    browser: Any = None

    @classmethod
    def setUpClass(cls) -> None:
        super().setUpClass()
        cls.browser = browser()
        cls.addClassCleanup(cls.browser.quit)

    def setUp(self) -> None:
        super().setUp()
        self.here = Path(".").resolve().as_uri()
        self.browser.get("about:blank")
        self.browser.execute_cdp_cmd("Emulation.clearDeviceMetricsOverride", {})
        self.browser.execute_cdp_cmd("Emulation.setEmulatedMedia", {"media": "", "features": []})
        for it in ("browser", "performance"):
            self.browser.get_log(it)

    def look(self, script: str) -> Any:
        """Returns what a script of this test finds on the page."""
        return self.browser.execute_script(f"return {script}")

    def find(self, selector: str) -> Any:
        return self.browser.find_element("css selector", selector)

    def click(self, selector: str) -> None:
        """Clicks an element, once more if the page puts another one in its place meanwhile."""
        from selenium.common.exceptions import StaleElementReferenceException

        try:
            self.find(selector).click()
        except StaleElementReferenceException:
            self.find(selector).click()

    def is_seen(self, selector: str) -> bool:
        """Returns whether the element stands within the window."""
        seen = (
            "(b => b.width > 0 && b.height > 0 && b.bottom > 0 && b.top <"
            f" innerHeight)(document.querySelector('{selector}').getBoundingClientRect())"
        )
        return bool(self.look(seen))

    def assert_quiet(self) -> None:
        """The console has no error, and nothing was asked of another place than this folder."""
        self.assertEqual([it["message"] for it in self.browser.get_log("browser")], [])
        asked = [json.loads(it["message"])["message"] for it in self.browser.get_log("performance")]
        addresses = [
            it["params"]["request"]["url"]
            for it in asked
            if it["method"] == "Network.requestWillBeSent"
        ]
        self.assertTrue(addresses)
        self.assertEqual(
            [it for it in addresses if not it.startswith((self.here, "data:image/"))], []
        )

    def await_address(self, end: str) -> None:
        """Waits until the page is at an address that ends so."""
        self.await_(lambda: bool(self.browser.current_url.endswith(end)), f"it is not at {end}")

    def await_sight(self, selector: str) -> None:
        """Waits until the element stands within the window."""
        self.await_(lambda: self.is_seen(selector), f"{selector} is not seen")

    def await_(self, is_so: Callable[[], bool], what: str) -> None:
        """Waits until something is so: on a busy machine a browser takes its time."""
        end = time.monotonic() + MOST_TIME
        while not is_so():
            self.assertLess(time.monotonic(), end, what)
            time.sleep(0.05)


class Shown(Browsing):
    """Pages of `show`, from files."""

    def open(self, *words: str) -> None:
        """Opens the page of these scores."""
        command("show", "-o", "page.html", *words)
        self.browser.get(Path("page.html").resolve().as_uri())

    def test_links(self) -> None:
        """A click on a message shows it in the picture, one on the code there shows it in the
        list, and one on its place opens the source at its line."""
        self.put("long.gabc", SCORE + "Ky(f)ri(g) " * 600)
        self.put("bad.gabc", FAULTY)
        self.open("long.gabc", "bad.gabc")
        for _ in range(2):
            self.click("a[href='#p2-m1-at']")
            self.await_address("#p2-m1-at")
            self.await_sight("#p2-m1-at")
            self.click("#p2-m1-at text")
            self.await_address("#p2-m1")
            self.await_sight("#p2-m1")
        self.assertFalse(self.look("document.querySelectorAll('details')[1].open"))
        self.click("#p2-m1 a")
        self.await_(
            lambda: bool(self.look("document.querySelectorAll('details')[1].open")),
            "the source is not open",
        )
        self.await_sight("#p2-l3")
        self.assert_quiet()

    def test_way_to_a_syllable(self) -> None:
        """The page by which the language server leads to a syllable shows it."""
        self.put("long.gabc", SCORE + "Ky(f)ri(g) " * 600)
        command("show", "-o", "page.html", "long.gabc")
        self.put("here.html", leading_to("page.html#p1-s900"))
        self.browser.get(Path("here.html").resolve().as_uri())
        self.await_address("page.html#p1-s900")
        self.await_sight("#p1-s900")
        self.assert_quiet()

    def test_hostile(self) -> None:
        """No script of a score runs."""
        self.put("a.gabc", HOSTILE)
        self.open("a.gabc")
        self.assertEqual(self.look("document.querySelectorAll('script, foo, b, img').length"), 0)
        self.assertEqual(self.look("document.querySelectorAll('svg').length"), 2)
        self.assertIn(
            "<script>alert(1)</script>",
            self.look("document.querySelector('svg > text').textContent"),
        )
        self.assert_quiet()

    def test_narrow_dark_and_printed(self) -> None:
        """On a narrow screen nothing stands beside it; in the dark the paper is dark and the
        notes light; the printed page has no source."""
        self.open(str(EXAMPLES / "hymn-verses.gabc"), str(EXAMPLES / "every-finding.gabc"))
        self.browser.execute_cdp_cmd(
            "Emulation.setDeviceMetricsOverride",
            {"width": 340, "height": 700, "deviceScaleFactor": 1, "mobile": True},
        )
        self.assertLessEqual(self.look("document.documentElement.scrollWidth"), 340)
        paper = "getComputedStyle(document.querySelector('.paper')).fill"
        notes = "getComputedStyle(document.querySelector('.chant use')).fill"
        light = self.look(f"[{paper}, {notes}]")
        self.browser.execute_cdp_cmd(
            "Emulation.setEmulatedMedia",
            {"features": [{"name": "prefers-color-scheme", "value": "dark"}]},
        )
        dark = self.look(f"[{paper}, {notes}]")
        self.assertEqual(light, ["rgb(255, 255, 255)", "rgb(0, 0, 0)"])
        self.assertEqual(dark, ["rgb(22, 22, 22)", "rgb(221, 221, 221)"])
        self.browser.execute_cdp_cmd(
            "Emulation.setEmulatedMedia", {"media": "print", "features": []}
        )
        self.assertEqual(
            self.look("getComputedStyle(document.querySelector('details')).display"), "none"
        )
        self.assert_quiet()

    def test_folder(self) -> None:
        """A click in the index opens the page of a score, and one there leads back."""
        self.put("scores/in/a b.gabc", FAULTY)
        self.put("scores/c.gabc", SCORE)
        command("show", "-o", "pages/", "scores")
        self.browser.get(Path("pages/index.html").resolve().as_uri())
        self.browser.find_element("link text", "in/a b.gabc").click()
        self.await_(
            lambda: bool(self.look("document.querySelectorAll('svg').length") == 2),
            "the page of the score is not open",
        )
        self.click(".back a")
        self.await_address("pages/index.html")
        self.assert_quiet()

    def test_sings(self) -> None:
        """`--play` sings: notes light up one after another, in the picture that is seen, by the
        page's own script alone; a double click on a syllable begins there, and a score with hostile
        text sings too."""
        self.put("a.gabc", HOSTILE)
        self.open("--play", str(EXAMPLES / "hymn.gabc"), "a.gabc")
        self.assertEqual(self.look("document.querySelectorAll('script').length"), 1)
        self.browser.execute_script("document.querySelector('.sing input').value = 240")
        self.click(".sing button")
        self.await_(lambda: bool(self.look("document.querySelector('.now')")), "no note lights up")
        self.assertEqual(self.find(".sing button").text, "Stop")
        self.assertTrue(
            self.look("document.querySelector('.now').parentElement.id").startswith("p1-s")
        )
        first = self.look("document.querySelector('.now').getAttribute('x')")
        self.await_(
            lambda: bool(self.look("document.querySelector('.now')?.getAttribute('x')") != first),
            "no other note lights up",
        )
        self.click(".sing button")
        self.assertIsNone(self.look("document.querySelector('.now')"))
        self.browser.execute_script(
            "document.querySelector('#p1-s20').dispatchEvent(new MouseEvent('dblclick', { bubbles:"
            " true }))"
        )
        self.await_(
            lambda: bool(self.look("document.querySelector('.now')?.parentElement.id") == "p1-s20"),
            "it does not begin there",
        )
        self.browser.execute_cdp_cmd(
            "Emulation.setDeviceMetricsOverride",
            {"width": 340, "height": 700, "deviceScaleFactor": 1, "mobile": True},
        )
        self.await_(
            lambda: str(self.look("document.querySelector('.now')?.parentElement.id")).startswith(
                "p1-n-s"
            ),
            "the picture that is seen lights up",
        )
        self.assert_quiet()

    def test_every_note_has_its_head(self) -> None:
        """Each note that sounds has a head where it is drawn, in both faces."""
        for face in ("square", "plain"):
            self.open(
                "--play",
                "--face",
                face,
                *(
                    str(EXAMPLES / f"{it}.gabc")
                    for it in ("hymn", "introit", "psalm-tone", "every-item")
                ),
            )
            lacking = self.browser.execute_script(
                "return [...document.querySelectorAll('.sing')].map((panel) =>"
                " JSON.parse(panel.dataset.sounds).filter(([syllable, head, key]) => key !== null"
                " && panel.dataset.prefixes.split(' ').some((prefix) => { let left = head; let"
                " group = document.getElementById(`${prefix}s${syllable}`); for (let part = 2;"
                " group; part += 1) { const heads = group.dataset.heads.split('"
                " ').filter(Boolean).length; if (left < heads) return false; left -= heads; group ="
                " document.getElementById(`${prefix}s${syllable}-${part}`); } return true;"
                " })).length)"
            )
            self.assertEqual(lacking, [0, 0, 0, 0], face)

    def test_phone(self) -> None:
        """On a narrow screen the picture for phones is seen, whole, and messages lead into it."""
        self.put("a.gabc", FAULTY)
        self.open("a.gabc")
        self.browser.execute_cdp_cmd(
            "Emulation.setDeviceMetricsOverride",
            {"width": 360, "height": 700, "deviceScaleFactor": 1, "mobile": True},
        )
        self.assertEqual(
            self.look(
                "[...document.querySelectorAll('svg')].map(it => it.getClientRects().length)"
            ),
            [0, 1],
        )
        self.assertLessEqual(
            self.look("document.querySelector('.narrow svg').getBoundingClientRect().right"), 360
        )
        self.click("a.narrow")
        self.await_address("#p1-n-m1-at")
        self.await_sight("#p1-n-m1-at")

    def test_text_has_its_length(self) -> None:
        """Whatever the face, each text is as long as it was laid out."""
        self.open(str(EXAMPLES / "hymn.gabc"))
        length = (
            "it.getEndPositionOfChar(it.getNumberOfChars() - 1).x - it.getStartPositionOfChar(0).x"
        )
        texts = "[...document.querySelectorAll('.wide text[textLength]')]"
        self.assertEqual(
            self.look(
                f"{texts}.filter(it => Math.abs({length} - it.textLength.baseVal.value) >"
                " 0.5).map(it => it.textContent)"
            ),
            [],
        )


@unittest.skipUnless(has("starlette") and has("uvicorn"), "there is no starlette, or no uvicorn")
class Written(Browsing):
    """The page of `page`, from its server."""

    def setUp(self) -> None:
        super().setUp()
        self.server = subprocess.Popen(
            [sys.executable, "-m", "gregorio_chant", "page"], stdout=subprocess.PIPE
        )
        self.addCleanup(self.stop)
        assert self.server.stdout is not None
        self.here = self.server.stdout.readline().decode().strip()
        self.browser.get(self.here)
        self.score = self.find("#score")

    def stop(self) -> None:
        self.server.send_signal(signal.SIGINT)
        self.server.communicate(timeout=MOST_TIME)

    def write(self, text: str) -> None:
        """Writes at the cursor as a keyboard or a paste does."""
        self.browser.execute_cdp_cmd("Input.insertText", {"text": text})

    def await_seen(self, text: str, selector: str = "#picture svg") -> None:
        """Waits until a text stands in the picture, or in another part of the page."""
        script = (
            f"(document.querySelector({json.dumps(selector)})?.textContent ??"
            f" '').includes({json.dumps(text)})"
        )
        self.await_(lambda: bool(self.look(script)), f"{text} is not seen")

    def cursor(self) -> int:
        return int(self.look("document.querySelector('#score').selectionStart"))

    def test_typing(self) -> None:
        """What is typed changes picture, messages, canonical form and dump."""
        self.assertEqual(self.look("document.activeElement.id"), "score")
        self.write(SCORE)
        self.await_seen("Nothing was found", "#totals")
        self.await_seen("name: Kyrie;\n%%\n(c4)\nKy(f)ri(gfg)e(e.)\n(::)\n", "#canonical")
        self.await_seen("syllable 2 ", "#dump")
        self.assertEqual(self.find("#name").text, "Kyrie")
        before = self.look("document.querySelectorAll('#picture use').length")
        self.score.send_keys("lei(g5)")
        self.await_seen("character left out of the notes", "#messages")
        self.assertGreater(self.look("document.querySelectorAll('#picture use').length"), before)
        self.assertEqual(
            self.look("document.querySelector('#picture .code').firstChild.textContent"), "E1"
        )
        self.assert_quiet()

    def test_to_learn(self) -> None:
        """The tutorial and the cheat sheet open from the page, and show their pictures."""
        for it in self.browser.find_elements("css selector", ".learn a"):
            address = it.get_attribute("href")
            with self.subTest(address):
                it.click()
                self.browser.switch_to.window(self.browser.window_handles[-1])
                self.await_(
                    lambda: bool(
                        self.browser.current_url == address
                        and self.look("document.readyState") == "complete"
                    ),
                    "the page is not there",
                )
                self.assertGreater(self.look("document.images.length"), 3)
                self.assertEqual(
                    self.look("[...document.images].filter(it => it.naturalWidth === 0).length"), 0
                )
                self.assertNotEqual(self.look("getComputedStyle(document.body).maxWidth"), "none")
                self.assertEqual([it["message"] for it in self.browser.get_log("browser")], [])
                self.browser.close()
                self.browser.switch_to.window(self.browser.window_handles[0])
        self.assertEqual(len(self.browser.find_elements("css selector", ".learn a")), 2)

    def test_clicks(self) -> None:
        """A click on a message shows it in the picture, and it and a click on a syllable put the
        cursor there; one on the code in the picture leads to the message."""
        begin = "name: a;\n%%\n(c4) \ufeff\U0001d11e(f) "
        score = begin + "Ky(f)ri(g) " * 600 + "e(g5)\n" + "Ky(f)ri(g) " * 200
        self.write(score)
        self.await_seen("character left out", "#messages")
        self.click("#messages button")
        self.await_sight("#p1-m1-at")
        self.await_(
            lambda: score.encode("utf-16-le")[2 * self.cursor() :].startswith(
                "5)".encode("utf-16-le")
            ),
            "the cursor is elsewhere",
        )
        here = "document.querySelector('#picture .here title')?.textContent"
        self.await_(lambda: bool(self.look(here) == "e: sol"), "another syllable is marked")
        self.click("#p1-m1-at text")
        self.await_address("#p1-m1")
        self.click("#p1-s2")
        self.await_(
            lambda: score.encode("utf-16-le")[2 * self.cursor() :].startswith(
                "\U0001d11e(f)".encode("utf-16-le")
            ),
            "the cursor is elsewhere",
        )
        self.assert_quiet()

    def test_drop(self) -> None:
        """A file that is dropped is read, also one that is no UTF-8."""
        for content, seen in (
            (b"name: b;\n%%\n(c4) Sanc(f)tus(g)\n", "Sanc"),
            (b"name: b;\n%%\n(c4) Ag(f)nus(g) \xff", "Ag"),
        ):
            self.browser.execute_script(
                (
                    "const data = new DataTransfer(); data.items.add(new File([new"
                    " Uint8Array(arguments[0])],"
                    " 'b.gabc'));document.querySelector('#score').dispatchEvent(new"
                    " DragEvent('drop', { dataTransfer: data, bubbles: true, cancelable: true }))"
                ),
                list(content),
            )
            self.await_seen(seen)
            self.assertTrue(
                self.look("document.querySelector('#score').value").startswith(
                    content.decode(errors="replace")
                )
            )
        self.await_seen("F1", "#messages")
        self.assert_quiet()

    def test_kept(self) -> None:
        """The tab keeps the score over a reload."""
        self.write(SCORE)
        self.await_seen("Nothing was found", "#totals")
        self.browser.refresh()
        self.await_seen("Nothing was found", "#totals")
        self.assertEqual(self.look("document.querySelector('#score').value"), SCORE)
        self.assert_quiet()

    def test_saved(self) -> None:
        """Score, canonical form and picture are saved under names of their own; the picture is a
        file of its own."""
        self.browser.execute_cdp_cmd(
            "Browser.setDownloadBehavior",
            {"behavior": "allow", "downloadPath": str(Path(".").resolve())},
        )
        self.write(FAULTY)
        self.await_seen("character left out", "#messages")
        for it in ("save", "save-canonical", "save-picture"):
            self.browser.execute_script(f"document.getElementById('{it}').click()")
        names = ("kyrie.gabc", "kyrie.canonical.gabc", "kyrie.svg")
        self.await_(
            lambda: all(Path(it).exists() and Path(it).stat().st_size > 0 for it in names),
            "a file is not there",
        )
        self.assertEqual(
            [Path(it).read_text() for it in names[:2]],
            [FAULTY, FAULTY.replace("5", "").replace("(c4) ", "(c4)\n")],
        )
        root = Xml.fromstring(Path("kyrie.svg").read_text())
        self.assertIn(".staff", root.findtext("{http://www.w3.org/2000/svg}style") or "")
        self.assertEqual([it for it in root.iter() if it.tag.endswith("}a")], [])
        if shutil.which("rsvg-convert"):
            self.assertEqual(
                subprocess.run(
                    ["rsvg-convert", "kyrie.svg"], capture_output=True, check=True
                ).stderr,
                b"",
            )
        self.assert_quiet()

    def test_sings(self) -> None:
        """It sings what stands in the field."""
        self.write(SCORE)
        self.await_seen("Nothing was found", "#totals")
        self.click("#sing button")
        self.await_(
            lambda: bool(self.look("document.querySelector('#picture .now')")), "no note lights up"
        )
        self.click("#sing button")
        self.assertIsNone(self.look("document.querySelector('.now')"))
        self.assert_quiet()

    def test_tree(self) -> None:
        """The tree is that of the score, and is opened at the cursor."""
        self.write(FAULTY)
        self.await_seen("character left out", "#messages")
        self.click("#tree-tab")
        self.click("#messages button")
        self.await_seen("left out", "#tree [aria-selected=true] > .row")
        self.assert_quiet()

    def test_too_long(self) -> None:
        """A score that is too long is not sent, and a line says so."""
        self.browser.execute_script(
            "const it = document.querySelector('#score'); it.value = ' '.repeat(1000001);"
            " it.dispatchEvent(new Event('input'))"
        )
        self.await_seen("is too long for this page.", "#state")
        self.assert_quiet()

    def test_hostile(self) -> None:
        """No script of a score runs, and nothing of it becomes an element."""
        self.write(HOSTILE)
        self.await_seen("<script>alert(1)</script>")
        self.assertEqual(
            self.look(
                "document.querySelectorAll('foo, img, #picture script, #picture b,"
                " #messages script, #messages .text *').length"
            ),
            0,
        )
        self.assert_quiet()

    def test_another_name(self) -> None:
        """By a name that leads to this machine the page is not to be had."""
        self.browser.get(self.here.replace("127.0.0.1", "localhost.example"))
        self.assertEqual(self.find("body").text, "only for pages of this server")

    def test_narrow(self) -> None:
        self.write((EXAMPLES / "hymn.gabc").read_text())
        self.await_seen("Nothing was found", "#totals")
        self.browser.execute_cdp_cmd(
            "Emulation.setDeviceMetricsOverride",
            {"width": 340, "height": 700, "deviceScaleFactor": 1, "mobile": True},
        )
        self.assertLessEqual(self.look("document.documentElement.scrollWidth"), 340)
        self.await_(
            lambda: int(self.look("document.querySelector('#picture svg').getAttribute('width')"))
            < 340,
            "the picture is as wide as before",
        )
        self.assert_quiet()

    def test_server_that_ends(self) -> None:
        self.stop()
        self.write("a")
        self.await_seen("The server has ended", "#state")


@unittest.skipUnless(shutil.which("rsvg-convert"), "there is no rsvg-convert")
class ByConverter(InFolder):
    def test_pictures(self) -> None:
        """rsvg-convert makes each picture to PNG with no warning, at 100 and at 300 dots per
        inch."""
        self.convert_all(SQUARE, scores_of_tables()[::10])
        self.convert_all(PlainFace(), [])

    @unittest.skipUnless(
        has("fontTools") and GRECILIAE.exists(), "there is no fontTools, or no Greciliae"
    )
    def test_font(self) -> None:
        """So it does with the outlines of a font, for each example and neume."""
        from gregorio_chant.pictures.font import face_of

        self.convert_all(face_of(str(GRECILIAE)), [])

    def convert_all(self, face: Face, more: list[bytes]) -> None:
        kinds = f"name: x;\n%%\n(c4) a({' '.join(KINDS.values()).replace('wg', 'fwg')})\n".encode()
        scores = [
            *(it.read_bytes() for it in sorted(EXAMPLES.glob("*.gabc"))),
            HOSTILE.encode(),
            kinds,
            *more,
        ]
        for score in scores:
            for dots in ("100", "300"):
                self.put("a.svg", draw(score, look=Look(face=face)).svg)
                made = subprocess.run(
                    ["rsvg-convert", "-d", dots, "-p", dots, "a.svg"],
                    capture_output=True,
                    check=False,
                )
                self.assertEqual(
                    (made.returncode, made.stderr, made.stdout[:4]), (0, b"", b"\x89PNG")
                )
