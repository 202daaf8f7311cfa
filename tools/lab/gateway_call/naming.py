"""Names for operators: which calls are the gateway's, and who its members are."""

import json
import time

from checks import standin
from checks.bridges import operator_at
from lab.gateway_call.again import SCREEN, Page
from lab.gateway_call.parts import Parts
from lab.gateway_call.trial import Trial

# The SSRC of the first page of this, and how soon a name is there.
FIRST, SOON = 7700, 40


class Naming(Trial):
    """The steps of names."""

    def try_own_calls(self):
        """Operators see which calls are the gateway's."""
        watch, ann = operator_at(self.tcp, 60), operator_at(self.tcp, 60)
        ann.show()
        self.check(ann.ask("as ann") == "as ann", "an operator has a name")
        watch.shown("watch names")
        one = Page(self.parts, "Una", FIRST)
        self.check(ann.ask(f"mute {FIRST}").startswith("ok "), "she mutes a page")
        wanted = [["agent-gateway", "group"], ["ann", "mute"]]
        calls = [line.split()[4:6] for line in ann.shown("calls 2")[:-1]]
        self.check(calls == wanted, "`calls` tells the gateway's call from hers", calls)
        told = [watch.lines.readline().split()[4:6] for _ in range(2)]
        self.check(told == wanted, "and so does `watch names`", told)
        one.goes_on = False
        self.parts.ask("leave", id=one.id)
        for each in watch, ann:
            each.lines.close()
        self.comes(lambda: not self.rows(), "the page leaves", self.rows)

    def try_members_named(self):
        """The desk's page has the names of members, and operators' own stay."""
        page = standin.Standin(text=json.dumps({"room 1": "Hall", "member 870001": "old", "member 5": "Ed"}))
        server = standin.serve(page)
        parts = Parts(self.folder, self.udp, self.tcp, self.parts.control, 870_000, desk_page=server.server_port)
        self.others.append(parts)
        parts.start("agent")
        names = lambda: json.loads(page.names)
        is_gone = lambda: "member 870001" not in names()
        self.comes(is_gone, "a name of before goes, as its member isn't there", names, SOON)
        first, second = pages = [Page(parts, name, FIRST + at) for at, name in enumerate(("Una", "D'Ua \u00fc"))]
        numbers = [one.told["member"] for one in pages]
        others = {"room 1": "Hall", "member 5": "Ed"}
        own = {f"member {number}": one.name for number, one in zip(numbers, pages)}
        self.comes(lambda: names() == others | own, "the desk's page has the members' names", names, SOON)
        own[f"member {numbers[0]}"] = "Chair"
        said = page.rename(f"names {page.version}\n{json.dumps(others | own)}")
        parts.ask("screen", id=second.id, shown=True)
        own[f"source {FIRST + 1 + SCREEN}"] = "D'Ua \u00fc's screen"
        good = lambda: names() == others | own
        self.comes(good, "a screen has one, and an operator's name stays", lambda: (said, names()), SOON)
        page.token = "0" * 32
        parts.ask("screen", id=second.id, shown=False)
        del own[f"source {FIRST + 1 + SCREEN}"]
        self.comes(good, "it goes with the screen, at a page that was started anew, too", names, SOON + 10)
        for one in pages:
            one.goes_on = False
            parts.ask("leave", id=one.id)
        self.comes(lambda: names() == others, "names go with their members", names, SOON)
        server.shutdown()
        time.sleep(0.1)
        parts.stop("agent")
        server.server_close()
