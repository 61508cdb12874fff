"""Why something can't be done."""

FAILED = 3


class Fault(Exception):
    """Why something can't be done, in one line; and the status with which the command ends."""

    def __init__(self, text, status=FAILED):
        super().__init__(text)
        self.status = status
