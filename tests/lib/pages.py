"""What tests do with the chat."""
from __future__ import annotations

from base import wait_until
from browser import ENTER, Browser, Window


class Chat(Window):
    """A window of the chat in which the user `name` has joined."""

    def __init__(self, browser: Browser, address: str, name: str) -> None:
        super().__init__(browser, address)
        self.write("#name", name + ENTER)
        self.wait_state("connected")

    def send(self, text: str) -> None:
        self.write("#text", text)
        self.click("#write button")

    def messages(self) -> list[str]:
        return self.texts("#messages li p")

    def wait_messages(self, expected: list[str]) -> None:
        """Waits until the window has at least as many messages as `expected`, and checks that they are these, in this order."""
        wait_until(f"the chat shows {len(expected)} messages", lambda: len(self.messages()) >= len(expected))
        assert self.messages() == expected

    def wait_notice(self, *words: str) -> None:
        """Waits for a notice that has all of `words`."""
        wait_until(f"a notice has {words}", lambda: any(all(it in notice for it in words) for notice in self.texts(".notice")))


def talk(ann: Chat, ben: Chat) -> None:
    """Checks that both windows show each message, as plain text."""
    texts = ["Hello Ben! Do you read this?", "I do. Two windows, and one server between them.", 'Shown as text: <b>1 < 2</b> & "so on"']
    ann.wait_notice("Ben", "joined")
    for writer, count in ((ann, 1), (ben, 2), (ann, 3)):
        writer.send(texts[count - 1])
        for chat in (ann, ben):
            chat.wait_messages(texts[:count])
