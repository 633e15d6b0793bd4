"""Every refusal is this exception."""


class Refused(Exception):
    def __init__(self, number, place=0):
        Exception.__init__(self, "refused %d at %d" % (number, place))
        self.number = number
        self.place = place
