"""What the scripts of this folder do as a browser does: they ask for pages, keep cookies, and send forms on."""
import html
import re
import urllib.error
import urllib.parse
import urllib.request


class NoRedirect(urllib.request.HTTPRedirectHandler):
    def redirect_request(self, *_):
        return None


def form_of(page, url):
    """Where the form of a page goes, and its hidden fields; nothing where it has none."""
    action = re.search(r'<form method="post" action="([^"]*)"', page)
    fields = dict(re.findall(r'<input type="hidden" name="(\w+)" value="([^"]*)"', page))
    return action and (urllib.parse.urljoin(url, html.unescape(action.group(1))), {key: html.unescape(text) for key, text in fields.items()})


def text_of(page):
    """What a page says."""
    return " ".join(html.unescape(re.sub(r"<[^>]*>", " ", page)).split())


class Browser:
    """A browser without scripts: the cookies that it keeps for each host, and the page that it shows."""

    def __init__(self):
        self.cookies, self.opened = {}, None
        self.at = self.status = self.page = None

    def keep(self, url, cookie):
        """Keeps a cookie for the host of this address; its port counts for nothing."""
        name, _, value = cookie.partition("=")
        self.cookies.setdefault(urllib.parse.urlsplit(url).hostname, {})[name] = value

    def ask(self, url, fields=None):
        """Asks for a page, or posts these fields, and goes on to where the answer sends it; `opened` is the cookie that came with that."""
        kept = self.cookies.get(urllib.parse.urlsplit(url).hostname, {})
        head = {"Cookie": "; ".join(f"{name}={value}" for name, value in kept.items())} if kept else {}
        body = urllib.parse.urlencode(fields).encode() if fields is not None else None
        try:
            answer = urllib.request.build_opener(NoRedirect).open(urllib.request.Request(url, body, head))
        except urllib.error.HTTPError as other:
            answer = other
        self.at, self.status, self.page = url, answer.status, answer.read().decode()
        cookie = re.match(r"[^;]*", answer.headers["Set-Cookie"] or "").group(0)
        if cookie:
            self.keep(url, cookie)
        if self.status == 303:
            self.opened = cookie or None
            self.ask(urllib.parse.urljoin(url, answer.headers["Location"]))

    def form(self):
        """Where the form of the page goes, and its hidden fields; nothing where it has none."""
        return form_of(self.page, self.at)

    def text(self):
        return text_of(self.page)
