"""Who is in a room, as its pages show it: who speaks, and who is muted, by whom."""

import time

# By whom a voice is muted: by nobody, by who calls, by an operator.
NOT, ITSELF, OPERATOR = "", "itself", "operator"


def muted_by(call, voice, rows):
    """By whom a voice is muted, of a call if it is one's."""
    if voice not in rows.mutes:
        return NOT
    return ITSELF if call is not None and call.is_own_mute else OPERATOR


def names_of(call):
    """The names of what a call sends, by SSRC."""
    names = {call.voice: call.name, call.camera: call.name, call.screen: f"{call.name}'s screen"}
    return {ssrc: name for ssrc, name in names.items() if ssrc is not None}


def people(room, rows, calls, speaks, silence):
    """Those of a room who send anything, as they joined. Who is no caller has its number for a name.

    `speaks` has the SSRCs of those who speak, and is None where the bridge doesn't say. A browser from which nothing
    has come for `silence` seconds is away: it may have lost its network.
    """
    now = time.monotonic()
    members = {member: {} for member, one in rows.members.items() if one == room}
    for ssrc, (member, kind) in rows.sources.items():
        if member in members:
            members[member].setdefault(kind, ssrc)
    callers, found = {call.member: call for call in calls}, []
    for member, sources in members.items():
        if not sources:
            continue
        call, voice = callers.get(member), sources.get("audio")
        found.append({
            "member": member,
            "name": call.name if call else f"member {member}",
            "voice": voice,
            "camera": sources.get("video"),
            "screen": sources.get("screen"),
            "speaks": voice in (speaks or ()),
            "muted": muted_by(call, voice, rows),
            "away": call is not None and call.side == "browser" and now - call.alive > silence,
        })
    return found
