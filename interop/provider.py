"""What the scripts of this folder share: they install packages of Debian, and run the program in a folder of its own."""
import html
import os
import re
import subprocess
import sys
import tempfile
import urllib.error
import urllib.request

sys.dont_write_bytecode = True
sys.path.insert(0, os.path.join(os.path.dirname(os.path.dirname(os.path.abspath(__file__))), "outside"))

from program import PROGRAM, Running, built, example  # noqa: E402, F401

PROTOCOL = "urn:oasis:names:tc:SAML:2.0:protocol"
ASSERTION = "urn:oasis:names:tc:SAML:2.0:assertion"
METADATA = "urn:oasis:names:tc:SAML:2.0:metadata"
POST = "urn:oasis:names:tc:SAML:2.0:bindings:HTTP-POST"


def install(*packages):
    """Installs those of these packages of Debian that are missing."""
    missing = [name for name in packages if subprocess.run(["dpkg", "-s", name], capture_output=True).returncode]
    if missing:
        subprocess.run(["apt-get", "update", "-q"], check=True, stdout=subprocess.DEVNULL)
        subprocess.run(["apt-get", "install", "-y", "-q", *missing], check=True, stdout=subprocess.DEVNULL)


def samld(*words, folder):
    """What the program prints with these words."""
    return subprocess.run([PROGRAM, *words], cwd=folder, capture_output=True, text=True).stdout


class Provider(Running):
    """The program as a provider in a folder, as long as the block lasts."""

    def __init__(self, role, folder, config, port, host="127.0.0.1"):
        super().__init__([PROGRAM, role, config, "1000000"], folder, port, host, stdout=subprocess.DEVNULL)


class Answered:
    """An answer: its status, its page, and the fields of its head that matter."""

    def __init__(self, answer):
        self.status = answer.status
        self.page = answer.read().decode()
        self.location = answer.headers["Location"]
        cookie = re.match(r"[^;]*", answer.headers["Set-Cookie"] or "").group(0)
        self.cookie = cookie or None

    def fields(self):
        """The hidden fields of its form."""
        return {name: html.unescape(value) for name, value in re.findall(r'name="(\w+)" value="([^"]*)"', self.page)}

    def action(self):
        """Where its form goes."""
        return html.unescape(re.search(r'action="([^"]*)"', self.page).group(1))


class NoRedirect(urllib.request.HTTPRedirectHandler):
    def redirect_request(self, *_):
        return None


def ask(url, fields=None, cookie=None):
    """Asks for a page, or posts these fields; no answer sends it elsewhere."""
    body = urllib.parse.urlencode(fields).encode() if fields is not None else None
    request = urllib.request.Request(url, body, {"Cookie": cookie} if cookie else {})
    try:
        return Answered(urllib.request.build_opener(NoRedirect).open(request))
    except urllib.error.HTTPError as other:
        return Answered(other)


class Told:
    """Counts what passed, and tells what did not."""

    def __init__(self):
        self.passed = self.failed = 0

    def check(self, holds, what):
        if holds:
            self.passed += 1
        else:
            self.failed += 1
            print("differs:", what)

    def end(self):
        print(f"{self.passed} passed, {self.failed} failed")
        return self.failed != 0


def change(folder, name, changed, into=None):
    """Writes what this makes of a file's text, into that file or into another one."""
    with open(os.path.join(folder, name), encoding="utf-8") as file:
        text = changed(file.read())
    with open(os.path.join(folder, into or name), "w", encoding="utf-8") as file:
        file.write(text)


def temporary():
    return tempfile.TemporaryDirectory()
