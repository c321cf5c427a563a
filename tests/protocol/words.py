"""A datagram in words, as docs/SCRIPTS.md says them."""

from __future__ import annotations

from .codec import DELETE, LINE, AskPages, Datagram, Drawop, Mark, Operation, Page, PageState, Request, SessionMessage, Shape, Text


def page_words(page: Page) -> str:
    return f"{page.creator}/{page.number}"


def operation_words(operation: Operation) -> str:
    if isinstance(operation, Shape):
        kind = "line" if operation.kind == LINE else "frame"
        return f"{kind} {operation.x0} {operation.y0} {operation.x1} {operation.y1} {chr(operation.glyph)}"
    if isinstance(operation, Text):
        letters = operation.letters.decode("ascii").replace("\\", "\\\\").replace('"', '\\"')
        return f'text {operation.x} {operation.y} "{letters}"'
    return f"{'delete' if operation.kind == DELETE else 'restore'} {operation.source} {operation.seq}"


def marks_words(marks: tuple[Mark, ...]) -> list[str]:
    return [f"{mark.source}={mark.high}" for mark in marks]


def words_of(datagram: Datagram) -> str:
    if isinstance(datagram, Drawop):
        return f"draw {datagram.source} {page_words(datagram.page)} {datagram.seq} {datagram.time} {operation_words(datagram.operation)}"
    if isinstance(datagram, SessionMessage):
        echoes = [f"{echo.source}@{echo.sent}+{echo.held}" for echo in datagram.echoes]
        head = ["session-message", str(datagram.sender), str(datagram.sent), page_words(datagram.page)]
        return " ".join(head + marks_words(datagram.marks) + echoes)
    if isinstance(datagram, Request):
        return f"request {datagram.asker} {datagram.source} {page_words(datagram.page)} {datagram.seq}"
    if isinstance(datagram, AskPages):
        return f"ask-pages {datagram.asker}"
    assert isinstance(datagram, PageState)
    return " ".join(["page-state", str(datagram.sender), page_words(datagram.page), *marks_words(datagram.marks)])
