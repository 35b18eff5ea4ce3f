"""What ends the command early, and the exit status."""

REFUSED, WRONG, DIED = 1, 2, 3


class Failure(Exception):
    """Something that was asked for and cannot be done, said in a line."""

    def __init__(self, message, status=WRONG):
        super().__init__(message)
        self.status = status
