"""A refusal, as reading.py and sheets.py give it."""


class Refused(Exception):
    """A refusal: its number, its place, and for an addition where the place lies."""

    def __init__(self, number, place, where=""):
        super().__init__(number, place, where)
        self.number, self.place, self.where = number, place, where

    def line(self):
        return ("refused %d at %d %s" % (self.number, self.place, self.where)).rstrip()
