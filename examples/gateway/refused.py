"""Why a call can't be had."""

# What is said of a fault of the agent itself. Its log says more.
FAILED = "The agent has failed at this. Try again, and tell who runs it to look into its log."


class Refused(Exception):
    """Words for the person who joins, and a status of HTTP. `again`: a page may come again by itself; `page`: where."""

    def __init__(self, words, status=503, again=False, page=""):
        super().__init__(words)
        self.status, self.again, self.page = status, again, page


def words_of(why):
    """What is said of an exception: nothing of the agent's inside."""
    return str(why) if isinstance(why, Refused) else FAILED
