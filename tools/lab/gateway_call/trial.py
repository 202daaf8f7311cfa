"""A bridge with an operator, the parts of the gateway, and callers."""

import shutil
import sys
import time

from checks.bridges import accepted, operator_at
from lab.gateway_call.callers import BrowserCaller
from lab.gateway_call.parts import Parts, until
from lab.sip import kamailio_lacks
from lab.waits import within
from operators.serving import settings, started
from operators.shared import ROOT, fail, release_program

# The callers that are browsers.
BROWSERS = "ABCF"
MODEL = ROOT / "tools/lab/models/served.py"


def lacking(*programs):
    """Which of these programs aren't installed, in words."""
    missing = [one for one in programs if not shutil.which(one)]
    return f"there is no {' and no '.join(missing)}" if missing else ""


class Trial:
    def __init__(self, args, check, folder):
        self.args, self.check, self.folder = args, check, folder
        # With --model a model stands in for the bridge.
        self.program, self.under = MODEL, [sys.executable, "-B"]
        if not args.model:
            self.program, self.under = release_program(args.binary), []
        self.udp = self.tcp = 0
        # Whether a part needs Kamailio.
        self.has_phones = True
        self.start_bridge()
        self.parts, self.callers, self.others = Parts(folder, self.udp, self.tcp), {}, []

    def start_bridge(self):
        """Starts the bridge, at the same ports if it had some."""
        with within(60, "the bridge to say where it listens"):
            path = settings(self.folder, self.udp, self.tcp, operators=4)
            # As bridge.toml of examples/gateway has it.
            path.write_text(path.read_text() + "report_ms = 1000\n")
            self.bridge, self.udp, self.tcp = started(self.program, path, self.under)
            self.operator = self.seated()
            # Its first line takes the seat: a bridge closes a connection that says nothing for half a minute.
            self.operator.show()

    def start_parts(self):
        """Starts rtpengine, the agent, and Kamailio if it is needed and there."""
        for part in ["rtpengine", "agent"] + ["kamailio"] * (self.has_phones and not kamailio_lacks()):
            if part not in self.parts.running:
                self.parts.start(part)

    def begin_anew(self):
        """Ends all callers and parts, and starts a bridge with an empty desk."""
        with within(120, "all parts to begin anew"):
            self.close_callers()
            for one in [*self.others, self.parts]:
                one.close()
            self.others.clear()
            self.restart_bridge()
            self.start_parts()

    def restart_bridge(self):
        self.bridge.kill()
        self.bridge.wait()
        self.start_bridge()

    def seated(self):
        return operator_at(self.tcp, 30)

    def rows(self):
        return self.operator.show()[0]

    def members(self):
        return sum(row.startswith("member ") for row in self.rows())

    def last_member(self):
        """The number of the member that joined last."""
        members = [row.split()[1:3] for row in self.rows() if row.startswith("member ")]
        if not members:
            fail("nobody is a member")
        return max(members, key=lambda one: int(one[0]))[1]

    def do(self, line):
        """The number of a call that has to be accepted."""
        return accepted(self.operator, line).split()[1]

    def undo(self, number):
        return self.do(f"undo {number}")

    def revert(self, number):
        """Takes one call back. The agent may have made calls of its own since, of who sees whom."""
        return self.do(f"revert {number}")

    def browser(self, name, page=None, flags=()):
        """A browser at a page that hasn't joined yet."""
        one = self.callers[name] = BrowserCaller(name, self.args.browser, self.folder, flags)
        one.at_page(page or self.parts.page)
        return one

    def comes(self, condition, text, seen=lambda: "", seconds=10):
        """Checks that something holds before long. After how many seconds it did."""
        with within(seconds + 30, text):
            took = until(condition, seconds)
        self.check(took is not None, f"{text}{'' if took is not None else f': not within {seconds} s'}", seen())
        return took

    def everyone_hears(self, text, silent="", gone="", show=False):
        """Whether each caller hears all others but who is silent or gone. Who is gone hears nobody."""
        for name, one in self.callers.items():
            others = [other for other in self.callers if other != name and other not in silent + gone]
            wanted = "" if name in gone else "".join(sorted(others))
            good, levels = one.hears(wanted)
            seen = levels if good else (levels, one.says())
            self.check(good, f"{text}: {name} hears {wanted or 'nobody'}, and not itself", seen)
            if show:
                print(f"      {levels}")

    def browsers(self):
        return [one for name, one in self.callers.items() if name in BROWSERS]

    def revert(self, number):
        """Takes a call back, whatever the gateway has done since."""
        return self.do(f"revert {number}")

    def sees(self, one, text, stage="-", without=""):
        """Checks that a browser sees all others but some, each once, and one of them or nobody on its stage."""
        left = without + stage
        others = "".join(other.name for other in self.browsers() if other is not one and other.name not in left)
        stage = "-" if stage == one.name else stage
        good, told = one.sees(stage, others)
        shown = f"{stage} on its stage, and " * (stage != "-") + (others or "nobody")
        self.check(good, f"{text}: {one.name} sees {shown}", told)

    def take_pictures(self, name):
        for one in self.browsers() if self.args.pictures else []:
            one.shows(1100, 900)
            time.sleep(1)
            one.picture(self.args.pictures / f"{name}_{one.name.lower()}.png")

    def close(self):
        self.close_callers()
        for parts in [*self.others, self.parts]:
            parts.close()
        self.bridge.kill()

    def close_callers(self):
        """Ends all callers without a word."""
        for one in self.callers.values():
            one.close()
        self.callers.clear()
