"""A line on a terminal that says what a tool does. Where standard error is no terminal, nothing is said."""
import sys


class Progress:
    """What is being done, in one line that each next one replaces; as a context it clears that line at its end."""

    def __init__(self, name, out=sys.stderr):
        self.name, self.out, self.is_seen, self.said = name, out, bool(name) and out.isatty(), ''

    def say(self, what):
        """Says what is done now; an empty text clears the line."""
        text = f'{self.name}: {what}' if what else ''
        if self.is_seen and text != self.said:
            blanks = ' ' * (len(self.said) - len(text))
            self.out.write(f'\r{text}{blanks}' + '\r' * (not text))
            self.out.flush()
            self.said = text

    def part(self, what, done, whole):
        """Says how much of it is done."""
        if self.is_seen:
            self.say(f'{what} .. {100 * done // max(whole, 1)} %')

    def clear(self):
        self.say('')

    def __enter__(self):
        return self

    def __exit__(self, *_):
        self.clear()


# For tools that say nothing.
SILENT = Progress('')
