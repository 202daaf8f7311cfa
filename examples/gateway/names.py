"""Who is who, for operators: the gateway writes its members' names to the desk's page (docs/FORMATS.md, The page's
names), and takes those away whose members have gone. What operators call a member stays."""

import contextlib
import json
import re
import threading
import time
import traceback
import urllib.error
import urllib.request

from call import log
from refused import Refused

# In seconds: how often it looks who is there, how often at the page without a change, and when again after a fault.
LOOK, ANEW, AGAIN = 1, 30, 10
# How often a change is tried where others have changed the names meanwhile.
TRIES = 3
TOKEN = re.compile('<meta name="desk-token" content="([0-9a-f]+)">')


class Names(threading.Thread):
    """`page`: the address of the desk's page, such as 127.0.0.1:7080."""

    def __init__(self, calls, page):
        super().__init__(daemon=True)
        self.calls, self.page, self.token = calls, page, ""
        # The names that were written last, when the page was last looked at, and what is wrong.
        self.written, self.asked, self.trouble = {}, -ANEW, ""

    def run(self):
        while True:
            time.sleep(LOOK)
            try:
                wanted = self.wanted()
                if self.calls.seen.version >= 0 and (wanted != self.written or time.monotonic() - self.asked > ANEW):
                    self.write(wanted)
                    self.asked = time.monotonic()
                trouble = ""
            except Refused as why:
                trouble = str(why)
            except Exception:
                trouble = "The desk's page can't be told who is who."
                if trouble != self.trouble:
                    traceback.print_exc()
            if trouble != self.trouble:
                log(trouble or "The desk's page has the names of members.")
            self.trouble = trouble
            if trouble:
                time.sleep(AGAIN)

    def wanted(self):
        """The names of all members that are calls, and of the screens that they show."""
        here = [call for call in self.calls if call.member in self.calls.seen.members]
        names = {f"member {call.member}": call.name for call in here}
        return names | {f"source {call.screen}": f"{call.name}'s screen" for call in here if call.shares}

    def is_own(self, key):
        """Whether what a name is of is the gateway's."""
        kind, _, number = key.partition(" ")
        own = {"member": self.calls.numbers, "source": self.calls.desk.screens}.get(kind, ())
        return number.isdecimal() and int(number) in own

    def changed(self, names, wanted):
        """The names as they are to be. One that operators have given stays as long as the member."""
        names = {key: name for key, name in names.items() if key in wanted or not self.is_own(key)}
        for key, name in wanted.items():
            if names.get(key, self.written.get(key)) == self.written.get(key):
                names[key] = name
        return names

    def write(self, wanted):
        for _ in range(TRIES):
            head, _, text = self.ask("names").partition("\n")
            names = json.loads(text)
            changed = self.changed(names, wanted)
            said = "ok" if changed == names else self.post(f"{head}\n{json.dumps(changed)}")
            if said.startswith("ok"):
                self.written = wanted
                return
            if not said.endswith("Newer"):
                break
        raise Refused(f"The desk's page doesn't take the names of members: {said}")

    def post(self, text):
        """What the page says to a change, by its token. It draws a new one when it is started anew."""
        with contextlib.suppress(Refused):
            return self.ask("names", text.encode()).strip()
        found = TOKEN.search(self.ask(""))
        self.token = found[1] if found else ""
        return self.ask("names", text.encode()).strip()

    def ask(self, path, body=None):
        request = urllib.request.Request(f"http://{self.page}/{path}", body, {"X-Desk-Token": self.token})
        try:
            with urllib.request.urlopen(request, timeout=10) as said:
                return said.read().decode()
        except urllib.error.HTTPError as why:
            raise Refused(f"The desk's page refuses the names of members: {why.read().decode().strip()}") from None
        except OSError:
            raise Refused("The desk's page doesn't answer: operators see numbers for names.") from None
