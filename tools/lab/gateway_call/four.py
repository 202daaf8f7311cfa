"""Four browsers whose pictures have numbers: who sees whom, how soon a new picture comes, and what is seen where
packets are lost, or where one's way is narrow."""

import contextlib
import statistics
import time

from lab.gateway_call.callers import RATE
from lab.gateway_call.following import Following
from lab.gateway_call.lossy import Lossy, Narrow
from lab.gateway_call.parts import Parts, until

# The room, how often each speaks, and for how many seconds what comes is looked at, after so many that it may take.
ROOM, ROUNDS, SECONDS, SETTLES = 4, 2, 15, 6
# The shares of packets that are lost both ways; and with each the least share of a picture's frames at the median, and
# the most ms without a frame.
LOSSES = (0.0, 0.8, 1000), (0.01, 0.7, 1500), (0.03, 0.5, 3000)
# What a narrow way takes, in bits a second: sound, and no picture beside it. How soon the sound is whole there, in
# seconds; for how many of them it is looked at then, and how much of it may be missing in these.
NARROW, WHOLE, HEARS, MISSING = 150_000, 5, 6, 0.02


class Four(Following):
    """The steps of four browsers in one room, by a network that is as good as a test wants it."""

    def step_turns(self):
        """Each of the four sees one other at a time, and each speaks: all others see it."""
        self.step_speakers(ROUNDS)

    @contextlib.contextmanager
    def over_network(self, first_member):
        """All four are in a room over another network, and then in the one of all."""
        lossy = Lossy(self.udp, self.tcp, 0.0)
        parts = Parts(self.folder, lossy.udp, lossy.tcp, self.parts.control, first_member=first_member)
        self.others.append(parts)
        parts.start("agent")
        for one in self.browsers():
            one.leave()
            one.at_page(parts.page, room=ROOM)
            one.join()
        for one in self.browsers():
            self.sees(one, "over another network")
        yield lossy
        self.come_home(self.browsers(), parts)

    def step_numbers(self):
        """All four see each other, over a network that loses packets."""
        with self.over_network(600_000) as lossy:
            for share, least, most in LOSSES:
                lossy.share = share
                time.sleep(SETTLES)
                self.flows(f"{share:.0%} lost both ways", least, most)
            lossy.share = 0.0
            print(f"      {lossy.count}")

    def flows(self, text, least, most):
        """What comes to each of each other in some seconds."""
        begun = time.time()
        time.sleep(SECONDS)
        end, small = time.time(), range(1, len(self.browsers()))
        found = [one.flow(slot, begun, end) for one in self.browsers() for slot in small]
        rates, longest = [one[0] / SECONDS for one in found], [one[1] for one in found]
        read, missing, wrong = (sum(one[at] for one in found) for at in (2, 3, 4))
        good = statistics.median(rates) >= least * RATE and max(longest) <= most
        rate = f"{statistics.median(rates):.1f} of {RATE} frames a second at the median, {min(rates):.1f} at least"
        text = f"{text}: {len(found)} pictures with {rate}, none for {max(longest)} ms at most"
        self.check(good, text, found)
        frames = sum(one[0] for one in found)
        text = f"the numbers of {read} of {frames} frames are read, and none comes twice or late"
        self.check(read > frames * 0.9 and wrong <= len(found), text, found)
        text = f"{missing} numbers are missing, of which the camera itself leaves out each second one"
        print(f"      {text}; none for {statistics.median(longest):.0f} ms at the median")

    def step_narrow(self):
        """One whose way is narrow loses pictures, and keeps its sound. Then the fourth one goes."""
        with self.over_network(650_000) as lossy:
            self.narrows(lossy, self.browsers()[0])
        self.callers.pop("F").close()

    def narrows(self, lossy, one):
        """The way to one gets narrow, and wide again."""
        before = self.mix_of(one)
        time.sleep(HEARS)
        print(f"      before: {self.lost(before, self.mix_of(one)):.1%} of the sound is missing")
        lossy.narrow[self.port_of(one)] = Narrow(NARROW)
        before, begun, sent = self.mix_of(one), time.monotonic(), lambda: self.small([one])
        resent = self.resent(one)
        took = self.comes(lambda: not sent(), f"{NARROW // 1000} kbit/s: no picture is sent", sent, 30)
        self.comes(lambda: "loses packets" in one.says(), "and the page says why", one.says)
        self.comes(lambda: self.sounds_whole(one), "its sound is whole again", lambda: self.mix_of(one), WHOLE)
        passed, first = time.monotonic() - begun, self.lost(before, self.mix_of(one))
        print(f"      after {took or 0:.1f} s; of the sound of {passed:.0f} s {first:.1%} is missing")
        print(f"      {self.resent(one) - resent} packets of pictures were sent again")
        before = self.mix_of(one)
        time.sleep(HEARS)
        lost = self.lost(before, self.mix_of(one))
        self.check(lost <= MISSING, f"then {lost:.1%} of the sound is missing in {HEARS} s", lost)
        others = [each.shows_now() for each in self.browsers()[1:]]
        self.check(all(len(each.strip("-")) == 3 for each in others), "the others see all", others)
        lossy.narrow.clear()
        back = until(lambda: len(one.shows_now().strip("-")) == 3, 100)
        self.check(back is not None, "the way is wide again: all pictures come back", (one.shows_now(), self.rows()))
        print(f"      after {back or 0:.1f} s")

    def sounds_whole(self, one):
        """Whether all of its sound comes for two seconds. What was lost of pictures is still asked for after these."""
        before = self.mix_of(one)
        time.sleep(2)
        return self.lost(before, self.mix_of(one)) == 0

    def port_of(self, one):
        """The port to which the bridge sends a browser's media."""
        member = str(one.joined["member"])
        address = next(row.split()[4] for row in self.rows() if row.startswith("member ") and row.split()[2] == member)
        return int(address.rpartition(":")[2])

    def resent(self, one):
        """How many packets of pictures the bridge has sent to a browser again."""
        slots = [row.split() for row in self.rows() if row.startswith("slot ")]
        own = {row[1] for row in slots if row[2] == str(one.joined["member"])}
        lines = [line.split() for line in self.operator.shown("stats") if line.startswith("stream ")]
        return sum(int(words[words.index("resent") + 1]) for words in lines if words[1] in own)

    def mix_of(self, one):
        """What a browser has got of its mix, and lost."""
        counts = one.counts("inbound-rtp", 0)
        return counts.get("packetsReceived", 0), counts.get("packetsLost", 0)

    def lost(self, before, after):
        """The share of its sound that is missing."""
        got, lost = (new - old for new, old in zip(after, before))
        return max(0, lost) / max(1, got + lost)
