"""Makes one page, without outside parts, that steps through a tour."""

from html import escape
from io import BytesIO
from pathlib import Path
from string import Template
from typing import Optional

from layout import Line
from picture import PAGE_WIDTH, figure_of, save_picture, title_of
from report import Step, Tour
from town import Places, Street
from turns import SIGNS, Turn, turns_of

TEMPLATE = Path(__file__).with_name("page.html")


def page_of(streets: list[Street], tour: Tour, lines: list[Line], places: Optional[Places]) -> str:
    turns = turns_of(streets, tour, lines, places)
    return Template(TEMPLATE.read_text(encoding="utf-8")).substitute(
        title=escape(title_of(tour)),
        steps=len(tour.steps),
        picture=inline_svg(streets, tour, lines),
        turns="\n".join(row_of(turn, step) for turn, step in zip(turns, tour.steps)),
    )


def inline_svg(streets: list[Street], tour: Tour, lines: list[Line]) -> str:
    """The picture as an element of a page: without its title, which the page has, and what stands before its root."""
    figure = figure_of(streets, tour, lines, PAGE_WIDTH)
    figure.axes[0].set_title("")
    file = BytesIO()
    save_picture(figure, file, "svg")
    text = file.getvalue().decode("utf-8")
    return text[text.index("<svg") :]


def row_of(turn: Turn, step: Step) -> str:
    kind = "serves" if step.serves else "deadhead"
    sign = f'<b title="{turn.word}">{SIGNS[turn.word]}</b>'
    place = f"<small>cost {step.cost}, to {escape(turn.to)}</small>"
    return f'<li class="{kind}">{sign} {escape(turn.text())} {place}</li>'
