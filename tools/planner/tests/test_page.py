"""The page, opened in a browser and stepped through."""

import re
import subprocess
from pathlib import Path

import pytest

from conftest import SMALL, run_tool

STEPS = 17


@pytest.fixture(scope="module")
def page(tmp_path_factory: pytest.TempPathFactory) -> Path:
    path = tmp_path_factory.mktemp("page") / "tour.html"
    files = (SMALL.with_suffix(ending) for ending in (".csv", ".report", ".geojson"))
    run = run_tool("draw.py", *files, "-o", path)
    assert run.returncode == 0, run.stderr
    return path


def opened(page: Path, fragment: str) -> str:
    """What the page has become after it was opened and its scripts have run."""
    command = ["chromium", "--headless", "--no-sandbox", "--disable-gpu", f"--user-data-dir={page.parent / 'profile'}"]
    command += ["--dump-dom", page.as_uri() + fragment]
    return subprocess.run(command, capture_output=True, encoding="utf-8", timeout=60, check=True).stdout


def classes(text: str, name: str) -> set[str]:
    """The classes that the script gave to an element."""
    tag = re.search(rf'<[^>]* id="{name}"[^>]*>', text)
    given = re.search(r' class="([^"]*)"', tag[0])
    return set(given[1].split()) if given else set()


def chosen_row(text: str) -> str:
    return re.search(r'<li class="[^"]*\bnow\b[^"]*">(.*?)</li>', text)[1]


def test_the_page_has_no_outside_parts(page: Path) -> None:
    text = page.read_text(encoding="utf-8")
    assert not re.search(r"<link|<script [^>]*src|<img|@import|url\(http|href=\"(?!#)", text)


def test_it_opens_with_the_whole_tour(page: Path) -> None:
    text = opened(page, "")
    assert f">step {STEPS} of {STEPS}<" in text
    assert not any("later" in classes(text, f"arrow-{step}") for step in range(1, STEPS + 1))
    assert text.count("<li ") == STEPS


def test_the_slider_is_moved_to_a_step(page: Path) -> None:
    text = opened(page, "#step=5")
    assert f">step 5 of {STEPS}<" in text
    for kind in ("line", "arrow", "number"):
        shown = [classes(text, f"{kind}-{step}") for step in range(1, STEPS + 1)]
        assert shown == [{"done"}] * 4 + [{"now"}] + [{"later"}] * (STEPS - 5)
    assert "turn round into Low Road" in chosen_row(text)


def test_before_the_first_step_there_are_only_streets(page: Path) -> None:
    text = opened(page, "#step=0")
    assert f">step 0 of {STEPS}<" in text
    assert all(classes(text, f"arrow-{step}") == {"later"} for step in range(1, STEPS + 1))
