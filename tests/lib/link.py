"""The link rules of both ends of a transmission (docs/LINE.md), for peers that a test speaks for."""
from tests.lib.frames import ACK0, ACK1, ENQ, EOT, NAK, is_good, is_last, is_text

MAX_TRIES = 7


class Sender:
    """The link rules of a sender of these texts."""

    def __init__(self, texts):
        self.texts, self.known, self.is_over = texts, 0, not texts
        self.begin_anew()

    def begin_anew(self):
        self.tries, self.said, self.is_granted = 0, None, False

    def says(self, heard):
        """What is said after this was heard (None: nothing came); None where nothing is."""
        right = ACK0 if not self.is_granted or self.known % 2 else ACK1
        is_progress = self.said is not None and heard == right
        if heard == EOT:
            self.is_over = True
            return None
        if is_progress:
            self.tries, self.known, self.is_granted = 0, self.known + self.is_granted, True
        elif self.said is not None:
            self.tries += 1
        self.said = self.due(heard, is_progress)
        self.is_over = self.said == EOT
        return self.said

    def due(self, heard, is_progress):
        if self.tries == MAX_TRIES or self.known == len(self.texts):
            return EOT
        if not self.is_granted:
            return ENQ
        is_wrong = self.said == ENQ and heard in (ACK0, ACK1)
        return self.texts[self.known] if is_progress or is_wrong or heard == NAK else ENQ

    def counted(self):
        return sum(is_last(text) for text in self.texts[: self.known])


class Receiver:
    """The link rules of a receiver. `refuses` says of a good text, by its number from 1, whether it is answered by NAK."""

    def __init__(self, refuses):
        self.refuses, self.last, self.texts, self.number, self.is_over = refuses, None, [], 0, False

    def answer(self, message):
        """What is said to this message; None where nothing is."""
        if message == EOT:
            self.is_over = True
        if message == ENQ:
            self.last = self.last or ACK0
            return self.last
        if self.last is None or not is_text(message):
            return None
        self.number += 1
        if not is_good(message) or self.refuses(self.number):
            self.last = NAK
        else:
            self.texts.append(message)
            self.last = ACK0 if len(self.texts) % 2 == 0 else ACK1
        return self.last
