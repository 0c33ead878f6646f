#!/usr/bin/env python3
"""Drives the page in headless Chromium, as a user does: by Debian's chromium, chromium-driver and python3-selenium.

    browser.py PAGE PROGRAM                  the tests; the last line is `N passed, M failed`
    browser.py PAGE --pictures FOLDER        pictures of the page in both themes, at two widths
    browser.py PAGE --picture FILE           the picture of README
"""
from __future__ import annotations

import functools
import http.server
import json
import os
import shutil
import subprocess
import sys
import tempfile
import threading
import time
import unittest
from pathlib import Path
from typing import Any, Dict, Iterator, List, Tuple

from selenium import webdriver
from selenium.webdriver.chrome.service import Service
from selenium.webdriver.common.action_chains import ActionChains
from selenium.webdriver.common.by import By
from selenium.webdriver.common.keys import Keys
from selenium.webdriver.remote.webelement import WebElement
from selenium.webdriver.support.select import Select
from selenium.webdriver.support.wait import WebDriverWait

TOP = Path(__file__).resolve().parents[2]
sys.path[:0] = [str(TOP), str(TOP / "python"), str(TOP / "web")]

from benchmarks.drawn import Kind, random_circuit  # noqa: E402
from page import module_in  # noqa: E402
from zxopt.faults import FAULTS  # noqa: E402

HEAD = 'OPENQASM 2.0;\ninclude "qelib1.inc";\n'
TWO_T = HEAD + "qreg q[1];\nt q[0];\nt q[0];\n"
ONE_S = HEAD + "qreg q[1];\ns q[0];\n"
CONTROLS = ("button", "checkbox", "combobox", "textbox", "link", "image", "group", "region", "table")
# How long a run may take on a busy machine, and how much processor time the page may take to open.
SECONDS = 120
SECONDS_TO_OPEN = 0.5
PICTURE_WIDTH = 1000


class Page:
    """The page in a browser of its own."""

    def __init__(self, file: Path, folder: str, width: int = 1280, height: int = 900) -> None:
        options = webdriver.ChromeOptions()
        options.add_argument("--headless=new")
        options.add_argument("--hide-scrollbars")
        options.add_argument(f"--user-data-dir={folder}/profile")
        if os.geteuid() == 0:
            options.add_argument("--no-sandbox")
        options.add_experimental_option("prefs", {"download.default_directory": folder})
        options.set_capability("goog:loggingPrefs", {"browser": "ALL", "performance": "ALL"})
        self.service = Service(shutil.which("chromedriver"))
        self.driver = webdriver.Chrome(service=self.service, options=options)
        self.address = file.resolve().as_uri()
        self.show("light", width, height)

    def show(self, theme: str, width: int, height: int, scale: float = 1) -> None:
        """Takes a theme, and a size of the window with its scale."""
        feature = {"name": "prefers-color-scheme", "value": theme}
        self.driver.execute_cdp_cmd("Emulation.setEmulatedMedia", {"features": [feature]})
        size = {"width": width, "height": height, "deviceScaleFactor": scale, "mobile": False}
        self.driver.execute_cdp_cmd("Emulation.setDeviceMetricsOverride", size)

    def open(self, fragment: str = "") -> None:
        """Loads the page anew."""
        self.driver.get("about:blank")
        self.driver.get(self.address + fragment)

    def at(self, name: str) -> WebElement:
        """The element with this id."""
        return self.driver.find_element(By.ID, name)

    def value(self, name: str) -> str:
        """What stands in a box."""
        return str(self.at(name).get_property("value"))

    def put(self, name: str, text: str) -> None:
        """Puts a text into a box at once, as pasting does."""
        self.driver.execute_script(
            "arguments[0].value = arguments[1]; arguments[0].dispatchEvent(new Event('input'))", self.at(name), text
        )

    def choose(self, name: str, value: str) -> None:
        """Chooses an entry of a list."""
        Select(self.at(name)).select_by_value(value)

    def is_running(self) -> bool:
        """Whether a run goes on."""
        return self.at("stop").is_enabled()

    def run(self) -> str:
        """Runs, and answers what is said in the end."""
        self.at("run").click()
        return self.wait()

    def wait(self) -> str:
        """Waits for the end of a run, and answers what is said."""
        WebDriverWait(self.driver, SECONDS, 0.05).until(lambda _: not self.is_running())
        return self.at("said").text

    def counts(self) -> Dict[str, List[str]]:
        """The rows of the table."""
        rows = self.driver.find_elements(By.CSS_SELECTOR, "#counts tbody tr")
        cells = [[it.text for it in row.find_elements(By.CSS_SELECTOR, "th, td")] for row in rows]
        return {name: counts for name, *counts in cells}

    def named(self) -> Iterator[Tuple[str, str]]:
        """The role and the accessible name of each control that is shown, as a screen reader has them."""
        for node in self.driver.execute_cdp_cmd("Accessibility.getFullAXTree", {})["nodes"]:
            role = node.get("role", {}).get("value", "").lower()
            if not node.get("ignored") and any(role.startswith(word) for word in CONTROLS):
                yield role, node.get("name", {}).get("value", "")

    def processor_seconds(self) -> float:
        """The processor time of the browser's processes so far."""
        mine, tick = {self.service.process.pid}, os.sysconf("SC_CLK_TCK")
        processes = {}
        for folder in Path("/proc").glob("[0-9]*"):
            try:
                fields = (folder / "stat").read_text().rpartition(")")[2].split()
            except OSError:
                continue
            processes[int(folder.name)] = (int(fields[1]), (int(fields[11]) + int(fields[12])) / tick)
        while more := {pid for pid, (parent, _) in processes.items() if parent in mine and pid not in mine}:
            mine |= more
        return sum(processes[pid][1] for pid in mine)

    def log(self, kind: str) -> List[Dict[str, Any]]:
        """What the browser logged since the last call."""
        return list(self.driver.get_log(kind))

    def requests(self) -> Iterator[str]:
        """The addresses that were asked for since the last call."""
        for entry in self.log("performance"):
            message = json.loads(entry["message"])["message"]
            if message["method"] == "Network.requestWillBeSent":
                yield message["params"]["request"]["url"]

    def close(self) -> None:
        """Ends the browser."""
        self.driver.quit()


class PageTest(unittest.TestCase):
    """What a user does."""

    file: Path
    program: str
    folder: Path
    page: Page

    @classmethod
    def setUpClass(cls) -> None:
        folder = tempfile.TemporaryDirectory()
        cls.addClassCleanup(folder.cleanup)
        cls.folder = Path(folder.name)
        cls.page = Page(cls.file, folder.name)
        cls.addClassCleanup(cls.page.close)
        # what the browser does before the page is opened is its own
        cls.page.open()
        list(cls.page.requests())

    def setUp(self) -> None:
        self.page.show("light", 1280, 900)
        self.page.open()

    def tearDown(self) -> None:
        messages = [entry["message"] for entry in self.page.log("browser")]
        self.assertEqual(messages, [], "the console says something")
        for address in self.page.requests():
            self.assertRegex(address, r"^(file://|data:|blob:|about:)", "a request to the network")

    def answer(self, text: str, *words: str) -> str:
        """What the program writes for a text."""
        ran = subprocess.run([self.program, *words], input=text.encode(), stdout=subprocess.PIPE, check=True)
        return ran.stdout.decode()

    def test_opens_quickly(self) -> None:
        self.page.driver.get("about:blank")
        before = self.page.processor_seconds()
        self.page.driver.get(self.page.address)
        time.sleep(0.5)
        spent = self.page.processor_seconds() - before
        print(f"the page opens in {spent:.2f} s of processor time")
        self.assertLess(spent, SECONDS_TO_OPEN)

    def test_examples(self) -> None:
        words = {"optimise": ("opt", "--best"), "same": ("same",), "compile": ("compile",), "reduce": ("reduce",)}
        options = Select(self.page.at("example")).options[1:]
        self.assertGreaterEqual(len(options), 4)
        for option in options:
            with self.subTest(option.text):
                Select(self.page.at("example")).select_by_visible_text(option.text)
                self.assertRegex(self.page.run(), r"^Done in \d+\.\d s\.")
                command, text = self.page.value("command"), self.page.value("first")
                if command == "same":
                    text += "\n//// second\n" + self.page.value("second")
                self.assertEqual(self.page.value("written"), self.answer(text, *words[command]).rstrip("\r"))

    def test_counts_and_pictures(self) -> None:
        self.page.put("first", TWO_T)
        said = self.page.run()
        self.assertIn("T gates: 2 read, 0 written.", said)
        self.assertEqual(self.page.counts(), {"read": ["2", "2", "0", "2", "1"], "written": ["0", "0", "0", "1", "1"]})
        pictures = self.page.driver.find_elements(By.CSS_SELECTOR, "#pictures svg")
        self.assertEqual([it.accessible_name for it in pictures], [
            "The circuit that was read: 1 qubit, 2 T gates, 2 columns",
            "The circuit that was written: 1 qubit, 0 T gates, 1 column",
        ])  # fmt: skip
        labels = [it.get_attribute("textContent") for it in pictures[0].find_elements(By.CSS_SELECTOR, ".t .label")]
        self.assertEqual(labels, ["T", "T"])

    def test_flags(self) -> None:
        self.page.put("first", TWO_T)
        self.page.driver.find_element(By.NAME, "best").click()
        self.page.driver.find_element(By.NAME, "scalar").click()
        self.page.driver.find_element(By.NAME, "report").click()
        self.page.run()
        self.assertEqual(self.page.value("written"), self.answer(TWO_T, "opt", "--scalar", "--report"))
        self.assertIn("// scalar root2 2 turn 0", self.page.value("written"))

    def test_a_refusal(self) -> None:
        text = HEAD + "qreg q[1];\n" + "t q[0];\n" * 100 + "  reset q[0]; t q[0];\n"
        self.page.put("first", text)
        self.assertIn(FAULTS[6].sentence, self.page.run())
        self.assertEqual(self.page.at("fault-line").text.strip(), "reset q[0]; t q[0];")
        self.assertEqual(self.page.driver.find_element(By.TAG_NAME, "mark").text, "reset q[0];")
        self.assertIn("Line 104, column 3: ", self.page.at("fault-sentence").text)
        self.assertIn(FAULTS[6].remedy, self.page.at("fault-remedy").text)
        self.assertEqual(self.page.at("first").get_attribute("aria-invalid"), "true")
        self.assertFalse(self.page.at("result").is_displayed())
        self.page.at("show-fault").click()
        self.assertEqual(self.page.driver.switch_to.active_element, self.page.at("first"))
        selected = self.page.driver.execute_script("return getSelection().toString()")
        self.assertEqual(selected, "reset q[0];")
        strip = self.page.driver.find_element(By.CLASS_NAME, "mark").rect
        box = self.page.at("first").rect
        self.assertTrue(box["y"] < strip["y"] < box["y"] + box["height"] - strip["height"], (box, strip))

    def test_two_boxes(self) -> None:
        self.page.choose("command", "same")
        self.page.put("first", TWO_T)
        self.page.put("second", ONE_S)
        self.assertIn("Both circuits have the same map", self.page.run())
        self.assertEqual(self.page.value("written"), "same\n")
        self.page.put("second", ONE_S.replace("s q", "t q"))
        self.assertRegex(self.page.run(), r"The answer is no, not shown \d+: nothing shows ")
        self.assertEqual(list(self.page.counts()), ["first", "second"])
        self.page.put("second", ONE_S.replace("s q", "s r"))
        self.page.run()
        self.assertIn("Line 4, column 1 of the second circuit: ", self.page.at("fault-sentence").text)
        self.assertEqual(self.page.at("second").get_attribute("aria-invalid"), "true")
        self.assertIsNone(self.page.at("first").get_attribute("aria-invalid"))

    def test_stop(self) -> None:
        self.page.put("first", random_circuit(Kind.RANDOM, 50, 50_000).text())
        self.page.at("run").click()
        time.sleep(1)
        self.assertTrue(self.page.is_running())
        self.page.at("stop").click()
        self.assertEqual(self.page.wait(), "Stopped.")
        self.assertFalse(self.page.at("result").is_displayed())
        self.page.put("first", TWO_T)
        self.assertRegex(self.page.run(), "^Done in ")

    def test_ten_thousand_gates(self) -> None:
        text = random_circuit(Kind.RANDOM, 50, 10_000).text()
        self.page.driver.find_element(By.NAME, "best").click()
        self.page.put("first", text)
        self.assertRegex(self.page.run(), "^Done in ")
        self.assertEqual(self.page.value("written"), self.answer(text, "opt"))
        self.assertEqual(self.page.counts()["read"][3], "10,000")
        self.assertIn("too large to be drawn", self.page.at("pictures").text)

    def test_a_dropped_file(self) -> None:
        drop = """
            const data = new DataTransfer();
            data.items.add(new File([arguments[1]], arguments[2]));
            arguments[0].dispatchEvent(new DragEvent("drop", { dataTransfer: data, bubbles: true, cancelable: true }));
        """
        self.page.driver.execute_script(drop, self.page.at("first"), TWO_T, "mine.qasm")
        self.until_said("mine.qasm is in the box.")
        self.assertEqual(self.page.value("first"), TWO_T)
        diagram = (TOP / "examples/diagram.zxd").read_text()
        self.page.driver.execute_script(drop, self.page.at("form"), diagram, "diagram.zxd")
        self.until_said("diagram.zxd is in the box.")
        self.assertEqual(self.page.value("command"), "compile")

    def test_a_file_that_is_chosen_and_one_that_is_saved(self) -> None:
        self.page.at("file").send_keys(str(TOP / "examples/two_t.qasm"))
        self.until_said("two_t.qasm is in the box.")
        self.page.run()
        self.page.at("save").click()
        saved = self.folder / "two_t.opt.qasm"
        # (the file is there before its bytes are)
        WebDriverWait(self.page.driver, SECONDS).until(lambda _: saved.exists() and saved.read_text())
        self.assertEqual(saved.read_text(), self.page.value("written"))

    def test_copying(self) -> None:
        grants = {"permissions": ["clipboardReadWrite", "clipboardSanitizedWrite"]}
        self.page.driver.execute_cdp_cmd("Browser.grantPermissions", grants)
        self.page.put("first", TWO_T)
        self.page.run()
        self.page.at("copy").click()
        self.until_said("The text is copied.")
        self.page.at("first").clear()
        self.page.at("first").send_keys(Keys.CONTROL, "v")
        self.assertEqual(self.page.value("first"), self.page.value("written"))

    def test_a_link(self) -> None:
        self.page.choose("command", "same")
        self.page.put("first", TWO_T)
        self.page.put("second", ONE_S)
        self.page.at("link").click()
        WebDriverWait(self.page.driver, SECONDS).until(lambda driver: "#" in driver.current_url)
        self.page.open("#" + self.page.driver.current_url.partition("#")[2])
        WebDriverWait(self.page.driver, SECONDS).until(lambda _: self.page.value("second"))
        self.assertEqual([self.page.value(it) for it in ("command", "first", "second")], ["same", TWO_T, ONE_S])
        self.page.open("#command=optimise&flags=scalar&text=OPENQASM%202.0;")
        WebDriverWait(self.page.driver, SECONDS).until(lambda _: self.page.value("first"))
        chosen = [it.get_attribute("name") for it in self.page.driver.find_elements(By.CSS_SELECTOR, "#flags :checked")]
        self.assertEqual(chosen, ["scalar"])

    def test_keyboard(self) -> None:
        keys = ActionChains(self.page.driver)
        reached = []
        for _ in range(12):
            keys.send_keys(Keys.TAB).perform()
            active = self.page.driver.switch_to.active_element
            reached.append(active.get_attribute("id") or active.get_attribute("name"))
        wanted = ["command", "best", "report", "scalar", "example", "file", "first", "run", "link"]
        self.assertEqual(reached[: len(wanted)], wanted)
        self.page.at("first").send_keys(TWO_T, Keys.CONTROL, Keys.ENTER)
        self.assertRegex(self.page.wait(), "^Done in ")

    def test_nothing_in_the_box(self) -> None:
        self.assertIn("Put a text into the box first", self.page.run())
        self.assertEqual(self.page.driver.switch_to.active_element, self.page.at("first"))

    def test_names_of_controls(self) -> None:
        self.page.put("first", TWO_T)
        self.page.run()
        self.check_names()
        self.page.choose("command", "same")
        self.page.put("second", "x")
        self.page.run()
        self.check_names()

    def check_names(self) -> None:
        named = list(self.page.named())
        self.assertGreater(len(named), 10)
        self.assertEqual([role for role, name in named if not name.strip()], [])

    def test_a_narrow_window(self) -> None:
        self.page.show("light", 360, 740)
        for text in ((TOP / "examples/adder.qasm").read_text(), "reset"):
            self.page.put("first", text)
            self.page.run()
            self.assertLessEqual(self.page.driver.execute_script("return document.documentElement.scrollWidth"), 360)

    def test_a_page_that_embeds_the_module(self) -> None:
        served = self.folder / "served"
        served.mkdir()
        for name in ("embed.html", "embed-worker.mjs", "zxopt.mjs"):
            shutil.copy(TOP / "web" / name, served)
        (served / "zxopt.wasm").write_bytes(module_in(self.file.read_text(encoding="utf-8")))
        handler = functools.partial(QuietHandler, directory=str(served))
        with http.server.ThreadingHTTPServer(("127.0.0.1", 0), handler) as server:
            threading.Thread(target=server.serve_forever, daemon=True).start()
            self.page.driver.get(f"http://127.0.0.1:{server.server_port}/embed.html")
            self.page.driver.find_element(By.TAG_NAME, "button").click()
            output = self.page.driver.find_element(By.TAG_NAME, "output")
            WebDriverWait(self.page.driver, SECONDS).until(lambda _: output.text)
            self.assertEqual(output.text, ONE_S.strip())
            server.shutdown()
        list(self.page.requests())

    def until_said(self, text: str) -> None:
        WebDriverWait(self.page.driver, SECONDS).until(lambda _: self.page.at("said").text == text)


class QuietHandler(http.server.SimpleHTTPRequestHandler):
    """Serves a folder, and tells nothing."""

    def log_message(self, *_: Any) -> None:
        """Tells nothing."""


def take_pictures(file: Path, folder: Path) -> None:
    """Pictures of the page in both themes at two widths: as it opens, with a result, and with a refusal."""
    circuit = (TOP / "examples/tof_3.qasm").read_text()
    texts = {"empty": "", "result": circuit, "refusal": HEAD + "qreg q[2];\nreset q[0];\n"}
    with tempfile.TemporaryDirectory() as room:
        page = Page(file, room)
        for theme in ("light", "dark"):
            for width in (1280, 360):
                for name, text in texts.items():
                    page.open()
                    page.show(theme, width, 900)
                    page.put("first", text)
                    if text:
                        page.run()
                    save_picture(page, folder / f"{name}_{theme}_{width}.png", theme, width)
        page.close()


def save_picture(page: Page, file: Path, theme: str, width: int, last: str = "html", scale: float = 1) -> None:
    """Saves a picture of the page, down to the end of an element."""
    bottom = "return document.querySelector(arguments[0]).getBoundingClientRect().bottom + scrollY"
    page.show(theme, width, int(page.driver.execute_script(bottom, last)) + 1, scale)
    page.driver.save_screenshot(str(file))


def take_picture(file: Path, to: Path) -> None:
    """The picture of README: an example and what came of it."""
    with tempfile.TemporaryDirectory() as room:
        page = Page(file, room, PICTURE_WIDTH)
        page.open()
        page.put("first", (TOP / "examples/tof_3.qasm").read_text())
        page.run()
        save_picture(page, to, "light", PICTURE_WIDTH, "#pictures", 0.75)
        page.close()


def main() -> None:
    file, word, *rest = sys.argv[1:]
    if word == "--pictures":
        take_pictures(Path(file), Path(rest[0]))
    elif word == "--picture":
        take_picture(Path(file), Path(rest[0]))
    else:
        PageTest.file, PageTest.program = Path(file), word
        suite = unittest.defaultTestLoader.loadTestsFromTestCase(PageTest)
        result = unittest.TextTestRunner(stream=sys.stdout, verbosity=0).run(suite)
        failed = {test.id().split(" (")[0].split(" [")[0] for test, _ in result.failures + result.errors}
        print(f"{result.testsRun - len(failed)} passed, {len(failed)} failed")
        sys.exit(1 if failed or not result.testsRun else 0)


if __name__ == "__main__":
    main()
