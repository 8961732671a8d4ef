"""A plug-in for pytest: a display for each test that asks for one, and what is left where a test fails.

    def test_drop_down(wlframe_display):
        wlframe_display.run("gtk4-demo", "--run=dropdown")
        wlframe_display.window(title="Selections").click(120, 80)
        wlframe_display.expect("open.png")

`@pytest.mark.wlframe(size=(480, 360))` gives the arguments of wlframe.Display. Expected pictures are in the folder `expected` beside the test's file, and `--wlframe-update`
writes those that differ. What a failed test leaves is in wlframe-failed/TEST (`--wlframe-failed FOLDER` names another place), and stands in the report: the last picture, the
expected and the actual one with what differs, a film of the last seconds, what the clients wrote, and a recording of all that was served.
"""
from __future__ import annotations

import os
import pathlib
import re
import shutil
import typing

import pytest

if typing.TYPE_CHECKING:
    from wlframe.display import Display

FIXTURE = "wlframe_display"
PACKAGE = pathlib.Path(__file__).resolve().parent


def pytest_addoption(parser: pytest.Parser) -> None:
    group = parser.getgroup("wlframe", "pictures of Wayland clients")
    group.addoption("--wlframe-update", action="store_true", help="write the expected pictures in place of comparing with them")
    group.addoption("--wlframe-failed", default="wlframe-failed", metavar="FOLDER", help="where what is left of failed tests goes (wlframe-failed)")


def pytest_configure(config: pytest.Config) -> None:
    config.addinivalue_line("markers", "wlframe(size=(W, H), rate=HZ, fullscreen=BOOL, env=DICT, ..): the arguments of the test's display")


def place_of(item: pytest.Item) -> pathlib.Path:
    """The folder of what a test leaves."""
    name = re.sub(r"[^\w.-]+", "-", item.nodeid.replace(".py::", "-").rpartition("/")[2]).strip("-")
    return pathlib.Path(os.path.abspath(item.config.getoption("--wlframe-failed"))) / name


@pytest.fixture
def wlframe_display(request: pytest.FixtureRequest) -> typing.Iterator["Display"]:
    """A display of the test's own, of which nothing is left behind the test."""
    from wlframe import programs  # pylint: disable=import-outside-toplevel
    from wlframe.display import Display  # pylint: disable=import-outside-toplevel

    mark, place = request.node.get_closest_marker("wlframe"), place_of(request.node)
    shutil.rmtree(place, ignore_errors=True)  # what an earlier run left
    options = {"expected": request.path.parent / "expected", "failed": place, "record": has_record(programs)}
    if request.config.getoption("--wlframe-update"):
        options["update"] = True
    with Display(**{**options, **(mark.kwargs if mark else {})}) as display:
        display.keep_film()
        yield display


def has_record(programs: typing.Any) -> bool:
    """Whether the program can record what it serves."""
    return "--record" in programs.options(programs.find())


def leave(display: "Display") -> list[str]:
    """Writes what a failed test leaves, and answers what it is, in lines."""
    place = display.failed
    place.mkdir(parents=True, exist_ok=True)
    lines = []
    for name, write in (("last.png", display.save_last), ("film.png", display.save_film), ("recording.rec", display.save_recording)):
        if write(place / name):
            lines.append(f"{name}: {WHAT[name]}")
    for number, client in enumerate(display.clients, 1):
        if client.output:
            (place / f"client-{number}.txt").write_text(client.output, encoding="utf-8")
            lines.append(f"client-{number}.txt: what {client.name} wrote")
    if display.sentences:
        (place / "bridge.txt").write_text("\n".join(display.sentences) + "\n", encoding="utf-8")
        lines.append("bridge.txt: what the bridge said")
    lines += [f"{it.name}: compared" for it in sorted(place.glob("*-*.png"))]
    return [f"in {place}:", *(f"  {line}" for line in lines)]


WHAT = {
    "last.png": "what was shown last",
    "film.png": "the last seconds, as an animated PNG",
    "recording.rec": "all that was served: `wlframe replay` shows the same frames without the client",
}


def shorten(info: pytest.ExceptionInfo) -> None:
    """A report ends at the test's own line, and not within this package, unless --full-trace asks for all."""
    entry = last = info.tb
    while entry is not None:
        if PACKAGE not in pathlib.Path(entry.tb_frame.f_code.co_filename).parents:
            last = entry
        entry = entry.tb_next
    last.tb_next = None


@pytest.hookimpl(hookwrapper=True)
def pytest_runtest_makereport(item: pytest.Item, call: pytest.CallInfo):
    if call.when == "call" and call.excinfo is not None and not item.config.getoption("fulltrace"):
        shorten(call.excinfo)
    outcome = yield
    report = outcome.get_result()
    display = getattr(item, "funcargs", {}).get(FIXTURE)
    if report.failed and display is not None:
        report.sections.append((f"what wlframe left of {report.when}", "\n".join(leave(display))))


def pytest_terminal_summary(terminalreporter: typing.Any) -> None:
    """Names what was left, also where the reports are cut short."""
    failed = [it for it in terminalreporter.getreports("failed") + terminalreporter.getreports("error")]
    left = [text for it in failed for name, text in it.sections if name.startswith("what wlframe left of ")]
    if left:
        terminalreporter.section("wlframe")
        for text in left:
            terminalreporter.line(text.splitlines()[0].removesuffix(":"))
