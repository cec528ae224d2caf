"""The cases, and what came of them."""
import os
import subprocess
import tempfile
from typing import NamedTuple

from attacking import made

ROOT = os.path.dirname(os.path.dirname(os.path.dirname(os.path.abspath(__file__))))
NOW = 1704067200000
ASKED = "asked _r1 rel1 /app 1704068000000"

# The refusals of docs/FORMATS.md, part 14.
NAMES = {
    1: "BadForm", 2: "BadBase64", 3: "TooLarge", 4: "BadXml", 5: "XmlLimit", 6: "BadNames", 7: "DuplicateId", 8: "NotResponse",
    9: "NotSuccess", 10: "NotOneAssertion", 11: "BadSignatureForm", 12: "BadReference", 13: "TagDiffers", 14: "DigestDiffers",
    15: "BadAssertion", 16: "WrongIssuer", 17: "WrongAudience", 18: "WrongRecipient", 19: "NotInTime", 20: "NotOutstanding",
    21: "RequestSpent", 22: "AssertionSeen", 23: "RelayDiffers", 30: "NotLogout", 31: "UnknownPeer", 32: "LogoutDestination",
    33: "NoSuchSession", 34: "UnknownLogout", 35: "LogoutNotInTime", 40: "NotAuthnRequest", 41: "UnknownIssuer",
    42: "RequestDestination", 43: "WrongConsumer", 45: "NoSuchPending", 46: "LoginRefused",
}
ALICE = "name alice"


class Case(NamedTuple):
    """A posted form, and what it is to be answered with: the number of a refusal, or the lines behind `accepted`."""
    name: str
    wanted: object
    body: bytes
    lines: tuple = (ASKED,)
    now: int = NOW


def posted(name, wanted, message=None, relay="rel1", **given):
    """The case of a form with this message; without one it is the base form."""
    return Case(name, wanted, made.form(made.response() if message is None else message, relay), **given)


def around(name, wanted, element, **given):
    """The case of a Response around this Assertion."""
    return posted(name, wanted, made.response(element), **given)


class Counted:
    """What passed and what failed."""

    def __init__(self, loud=False):
        self.passed = self.failed = 0
        self.loud, self.names = loud, []

    def say(self, good, name, wanted="", got=""):
        self.names.append(name)
        self.passed, self.failed = self.passed + bool(good), self.failed + (not good)
        if not good:
            print(f"FAILED  {name}: wanted {wanted}, got {got}", flush=True)
        elif self.loud:
            print(f"ok      {name}: {got or wanted}", flush=True)


def answer_of(wanted):
    """The status and the text that `check` is to end with."""
    if isinstance(wanted, int):
        return 1, f"refused {wanted} {NAMES[wanted]}\n"
    return 0, "".join(f"{line}\n" for line in ("accepted", *wanted.split("\n")))


def put(folder, name, data):
    with open(os.path.join(folder, name), "wb") as file:
        file.write(data if isinstance(data, bytes) else data.encode())


def example(role, name):
    with open(os.path.join(ROOT, "examples", role, name), "rb") as file:
        return file.read()


CONFIG = (f"entity {made.SP}", "base http://127.0.0.1:8081", "listen 127.0.0.1:8081", "skew 60", "key_in key_in", "key_out key_out", "id_key id_key")


def checked(counted, program, family, cases, extra=None):
    """Judges each of these forms with `check`."""
    with tempfile.TemporaryDirectory() as folder:
        files = {"idp.xml": example("sp", "idp.xml"), "key_in": made.KEY, "key_out": b"o" * 32, "next_key": b"n" * 32, "id_key": b"i" * 32, **(extra or {})}
        for name, data in files.items():
            put(folder, name, data)
        for case in cases:
            named = any(line.startswith("registry") for line in case.lines)
            put(folder, "config", "".join(f"{line}\n" for line in (*CONFIG, *(() if named else ("idp idp.xml",)), *case.lines)))
            put(folder, "form", case.body)
            ran = subprocess.run([program, "check", "config", "form", str(case.now)], cwd=folder, capture_output=True, timeout=60)
            got = ran.returncode, ran.stdout.decode(errors="replace")
            wanted = case.wanted if isinstance(case.wanted, tuple) else answer_of(case.wanted)
            counted.say(got == wanted, f"{family}/{case.name}", wanted, got)
