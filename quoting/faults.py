"""What is wrong with the input, in words."""


class InputError(Exception):
    """What is wrong with the input, a message for each place."""

    def __init__(self, *messages):
        super().__init__('; '.join(messages))
        self.messages = messages


def told(text):
    """A cell's text in a message: plain characters, not too many."""
    text = ascii(text)
    return text if len(text) <= 60 else text[:56] + '...' + text[0]
