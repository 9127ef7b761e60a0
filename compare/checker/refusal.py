"""Document 01's refusals."""


class Refused(Exception):
    """A question is refused with a number of document 01's table, at a place."""

    def __init__(self, number, place=0):
        super().__init__(number, place)
        self.number = number
        self.place = place
