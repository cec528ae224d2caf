"""Attacks on a running service provider: replays, sessions, addresses, markup, logouts, its guard and its HTTP."""
import concurrent.futures

from attacking import made
from attacking.nodes import Asked, by, is_shown, logout, logout_reply, opened, provider, telling

SCRIPT = "<script>alert(1)</script>\"'&"
POLICY = "closed deny /app/admin\nrest allow /app/*\n"


def cookie_of(text):
    return f"sp_sid={text}"


# ---- sp

def logins(node):
    """One login, and then what was used in it again."""
    asked = Asked(node)
    form = asked.form()
    first = node.send("/acs", form)
    yield "control-login", (303, "/app", True), (first.status, first.line("Location"), is_shown(node, first.cookie()))
    yield "replay", 21, node.send("/acs", form).told()
    yield "replay-with-cookie", 21, node.send("/acs", form, first.cookie()).told()
    later = Asked(node)
    element = made.signed(asked.assertion(), uri="#" + asked.ident)
    around = made.response(element, "_other", request=later.request)
    yield "assertion-in-other-response", 20, node.send("/acs", made.form(around, later.relay)).told()
    around = made.response(element, "_other", request=None)
    yield "assertion-without-response-request", 21, node.send("/acs", made.form(around, later.relay)).told()
    later.ident = asked.ident
    yield "assertion-id-again", 22, node.send("/acs", later.form()).told()
    node.stop()
    node.start()
    yield "replay-behind-a-crash", 21, node.send("/acs", form).told()
    yield "session-behind-a-crash", True, is_shown(node, first.cookie())
    form = Asked(node).form()
    with concurrent.futures.ThreadPoolExecutor(8) as pool:
        got = sorted(each.told() for each in pool.map(lambda _: node.send("/acs", form), range(8)))
    yield "eight-at-once", [21] * 7 + [303], got


def sessions(node):
    """Cookies that a stranger chooses or guesses."""
    chosen = cookie_of("_" + "0" * 56)
    given = node.send("/acs", Asked(node).form(), chosen).cookie()
    yield "cookie-fixed", (True, False, True), (given != chosen, is_shown(node, chosen), is_shown(node, given))
    again = node.send("/acs", Asked(node).form(name="bob"), given).cookie()
    yield "cookie-is-new-at-each-login", (True, True), (again != given, is_shown(node, again, "bob"))
    number = given[:len("sp_sid=_") + 16]
    guesses = {
        "number": number, "zeros": number + "0" * 40, "case": given.upper().replace("SP_SID", "sp_sid"), "cut": given[:-1], "longer": given + "0",
        "empty": "sp_sid=", "request": cookie_of(Asked(node).request),
    }
    for name, guess in guesses.items():
        yield f"cookie-{name}", (200, ""), (
            (reply := node.ask("/app", guess)).status, reply.page[reply.page.find('<p id="name"'):] if "id=\"name\"" in reply.page else "",
        )
    yield "cookie-of-another-name", False, is_shown(node, given.replace("sp_sid", "idp_sid"))
    yield "cookie-behind-another", (False, True), (is_shown(node, f"{chosen}; {given}"), is_shown(node, f"{given}; {chosen}"))


def addresses(node):
    """Where a browser is sent, and whose name an answer holds."""
    targets = {"two-slashes": "/app//evil.example", "dots": "/app/../..//evil.example/", "query": "/app?next=https://evil.example/"}
    for name, path in targets.items():
        reply = node.send("/acs", Asked(node, path).form())
        yield f"target-{name}", (303, path.partition("?")[0]), (reply.status, reply.line("Location"))
    none = {
        "host": "//evil.example/app", "absolute": "http://evil.example/app", "line": "/app/%0d%0aSet-Cookie:x=y", "backslash": "/app/\\evil.example",
        "at": "/app@evil.example", "dot": "/app.evil.example", "scheme": "/app/javascript:alert(1)", "long": "/app/" + "a" * 256,
    }
    for name, path in none.items():
        yield f"target-{name}", 404, node.ask(path).status
    asked = Asked(node)
    for name, relay in {"url": "https://evil.example/", "line": "x\r\nLocation: https://evil.example/", "markup": SCRIPT}.items():
        reply = node.send("/acs", made.form(asked.message(), relay))
        yield f"relay-{name}", (23, False), (reply.told(), "evil" in reply.data.decode() or "script" in reply.page)
    page = node.ask("/app", lines=(
        "Host: evil.example", "X-Forwarded-Host: evil.example", "Forwarded: host=evil.example", "Referer: http://evil.example/", "X-Original-URL: /evil",
    ))
    yield "host", (200, False, "http://127.0.0.1:8080/sso"), (page.status, "evil" in page.data.decode() + page.message(), page.action())


def markup(node):
    """Names, values and addresses with markup in them."""
    written = made.text(SCRIPT)
    stated = made.tag("saml:AttributeStatement", made.attribute(written.replace("&gt;", ">").replace('"', "&quot;"), written))
    page = node.ask("/app", opened(node, name=written, behind=stated)).page
    yield "markup-in-login", (3, False), (page.count("&lt;script&gt;alert(1)&lt;/script&gt;&quot;&#39;&amp;"), "<script" in page)
    before = node.records()
    opened(node, name="eve\n2024-01-01T00:00:00.000Z Opened name=admin")
    yield "line-in-records", (2, 0), (len(node.records()) - len(before), sum(line.endswith("Opened name=admin") for line in node.records()))
    yield "markup-in-path", (404, False), ((reply := node.ask("/<script>")).status, "script" in reply.page)
    yield "markup-in-refusal", (11, False), (
        (reply := node.send("/acs", made.form(made.response(made.bare(made.assertion(written)))))).told(), "script" in reply.page,
    )


def logouts(node):
    """Messages of logouts that were not meant, and one that was."""
    cookie = opened(node)
    good = by(logout(), made.KEY)
    outer = logout(name="bob", ident="_evil")
    signature = good[good.index("<ds:Signature"):good.index("</ds:Signature>") + len("</ds:Signature>")]
    refused = {
        "unsigned": (11, made.bare(logout())), "other-key": (13, by(logout(), b"x" * 32)), "own-key": (13, by(logout(), b"o" * 32)),
        "issuer": (31, by(logout(issuer="urn:x"), made.KEY)),
        "destination": (32, by(logout(destination="http://127.0.0.1:9/slo"), made.KEY)),
        "destination-absent": (32, by(logout(destination=None), made.KEY)), "expired": (35, by(logout(end=-61), made.KEY)),
        "name-changed": (14, good.replace("alice", "bob")), "wrapped": (11, outer.replace(made.MARK, good)),
        "borrowed": (12, outer.replace(made.MARK, signature)), "doctype": (4, "<!DOCTYPE a>" + good),
        "instruction-in-name": (14, good.replace("alice", "alice<?x?>")), "other-user": (33, by(logout("carol"), made.KEY)),
        "other-index": (33, by(logout(indexes=("_s2",)), made.KEY)),
    }
    for name, (number, message) in refused.items():
        yield f"logout-{name}", (number, True), (node.send("/slo", telling(message)).told(), is_shown(node, cookie))
    yield "logout-in-other-field", 30, node.send("/slo", made.form(good)).told()
    yield "logout-as-login", 8, node.send("/acs", made.form(good)).told()
    yield "login-as-logout", 30, node.send("/slo", made.form(Asked(node).message())).told()
    yield "logout-reply-unsigned", 11, node.send("/slo", made.form(made.bare(logout_reply()))).told()
    yield "logout-reply-unasked", 34, node.send("/slo", made.form(by(logout_reply(), made.KEY, "_l2"))).told()
    yield "logout-by-link", (405, 405, True), (node.ask("/logout", cookie).status, node.ask("/slo", cookie).status, is_shown(node, cookie))
    yield "logout-without-cookie", 33, node.post("/logout", {}).told()
    yield "control-logout", (200, False), (node.send("/slo", telling(good.replace(">alice<", ">al<!-- x -->ice<"))).status, is_shown(node, cookie))
    yield "logout-again", 33, node.send("/slo", telling(good)).told()
    yield "closed-cookie", 33, node.post("/logout", {}, cookie).told()


# ---- guard

def guard(node):
    """What a proxy is told at /auth."""
    cookie = opened(node)
    known = node.ask("/auth/app/x", cookie)
    yield "control", (200, "alice"), (known.status, known.line("Remote-User"))
    yield "no-cookie", 401, node.ask("/auth/app/x").status
    yield "guessed-cookie", 401, node.ask("/auth/app/x", cookie[:-1] + "g").status
    named = node.ask("/auth/app/x", cookie, lines=("Remote-User: admin", "X-Remote-User: admin"))
    yield "line-sent-by-client", "alice", named.line("Remote-User")
    stated = made.tag("saml:AttributeStatement", made.attribute("a&amp;role", "b&amp;role=admin&#xD;\nRemote-User: admin"))
    told = node.ask("/auth/app/x", opened(node, name="alice&#xD;\nRemote-User: admin", behind=stated))
    wanted = "alice%0D%0ARemote-User:%20admin", "a%26role=b%26role%3Dadmin%0D%0ARemote-User%3A+admin"
    yield "line-in-name", wanted, (told.line("Remote-User"), told.line("Remote-Attributes"))
    paths = {"denied": "/app/admin", "query": "/app/admin?x=/app/x"}
    for name, path in paths.items():
        yield f"path-{name}", (403, True), ((reply := node.ask("/auth" + path, cookie)).status, "Denied by closed" in reply.page)
    odd = {
        "dot": "/app/./admin", "dots": "/app/x/../admin", "two-slashes": "/app//admin", "slashes-first": "//app/admin", "escaped": "/app/%61dmin",
        "semicolon": "/app/admin;x", "nul": "/app/admin%00", "escaped-dots": "/app/x/%2e%2e/admin", "backslash": "/app/x\\..\\admin",
    }
    for name, path in odd.items():
        yield f"path-{name}", (403, True), ((reply := node.ask("/auth" + path, cookie)).status, "Denied by default" in reply.page)
    yield "page-denied", (403, 200), (node.ask("/app/admin", cookie).status, node.ask("/app/x", cookie).status)
    yield "after-logout", 401, (node.post("/logout", {}, cookie), node.ask("/auth/app/x", cookie).status)[1]


# ---- http

def heads(node):
    """Heads of which two readers might find two ends, or two bodies."""
    post = "POST /acs HTTP/1.1\r\nContent-Type: application/x-www-form-urlencoded\r\n"
    rest = {
        "two-lengths": (400, "Content-Length: 5\r\nContent-Length: 50\r\n\r\nhello"),
        "two-lengths-alike": (400, "Content-Length: 5\r\nContent-Length: 5\r\n\r\nhello"),
        "length-list": (400, "Content-Length: 5, 5\r\n\r\nhello"), "length-signed": (400, "Content-Length: +5\r\n\r\nhello"),
        "length-negative": (400, "Content-Length: -5\r\n\r\nhello"),
        "length-hex": (400, "Content-Length: 0x5\r\n\r\nhello"), "length-empty": (400, "Content-Length:\r\n\r\nhello"),
        "length-great": (400, "Content-Length: 99999999999\r\n\r\nhello"),
        "length-too-great": (413, "Content-Length: 1048577\r\n\r\n"), "no-length": (411, "\r\nhello"),
        "chunked": (501, "Transfer-Encoding: chunked\r\n\r\n5\r\nhello\r\n0\r\n\r\n"),
        "chunked-and-length": (501, "Content-Length: 5\r\nTransfer-Encoding: chunked\r\n\r\n0\r\n\r\n"),
        "identity": (501, "Transfer-Encoding: identity\r\nContent-Length: 5\r\n\r\nhello"),
        "chunked-behind-line-feed": (501, "X: y\nTransfer-Encoding: chunked\r\nContent-Length: 5\r\n\r\nhello"),
        "space-before-colon": (400, "Content-Length : 5\r\n\r\nhello"),
        "folded": (400, "X: y\r\n Content-Length: 5\r\n\r\nhello"), "nul": (400, "X: y\0\r\nContent-Length: 5\r\n\r\nhello"),
        "return-in-value": (400, "X: y\rContent-Length: 5\r\n\r\nhello"),
        "no-colon": (400, "X\r\nContent-Length: 5\r\n\r\nhello"), "empty-name": (400, ": y\r\nContent-Length: 5\r\n\r\nhello"),
    }
    for name, (status, sent) in rest.items():
        yield name, status, node.raw((post + sent).encode()).status
    whole = {
        "line-feeds": (400, "GET /app HTTP/1.1\n\nGET /metadata HTTP/1.1\r\n\r\n"), "old-version": (400, "GET /app\r\n\r\n"),
        "next-version": (400, "PRI * HTTP/2.0\r\n\r\nSM\r\n\r\n"),
        "space-in-target": (400, "GET /app x HTTP/1.1\r\n\r\n"), "long-head": (400, "GET /app HTTP/1.1\r\nX: " + "y" * 16_384),
        "many-lines": (400, "GET /metadata HTTP/1.1\r\n" + "X: y\r\n" * 65 + "\r\n"),
        "lines-enough": (200, "GET /metadata HTTP/1.1\r\n" + "X: y\r\n" * 64 + "\r\n"), "control-old": (200, "GET /metadata HTTP/1.0\r\n\r\n"),
        "not-ascii": (400, "GET /\u00e9 HTTP/1.1\r\n\r\n"),
    }
    for name, (status, sent) in whole.items():
        yield name, status, node.raw(sent.encode()).status


def bodies(node):
    """Methods, media types, paths, and what stands behind a body."""
    for media in ("text/plain", "multipart/form-data", "application/json", "text/xml", "application/x-www-form-urlencodedx", "", None):
        name = (media or ("empty" if media == "" else "absent")).replace("/", "-")
        yield f"media-{name}", 415, node.send("/acs", Asked(node).form(), media=media).status
    yield "media-parameter", 303, node.send("/acs", Asked(node).form(), media="Application/X-WWW-Form-URLencoded; charset=utf-16").status
    for method in ("GET", "PUT", "HEAD", "OPTIONS", "TRACE", "post", "DELETE"):
        yield f"method-{method}", 405, node.ask("/acs?SAMLResponse=x", method=method).status
    for name, path in {
        "case": "/ACS", "slash": "/acs/", "slashes": "//acs", "nul": "/acs%00", "dot": "/./acs", "escaped": "/%61cs", "semicolon": "/acs;x",
    }.items():
        yield f"path-{name}", 404, node.send(path, "x=1").status
    yield "path-below-app", 405, node.send("/app/../acs", "x=1").status
    body = Asked(node).form()
    head = b"POST /acs HTTP/1.1\r\nContent-Type: application/x-www-form-urlencoded\r\nContent-Length: %d\r\n\r\n"
    second = b"GET /metadata HTTP/1.1\r\n\r\n"
    reply = node.raw(head % 3 + b"x=1" + second)
    yield "second-request", (1, 1), (reply.told(), reply.data.count(b"HTTP/1.1 "))
    yield "body-cut", 1, node.raw(head % 1 + body).told()
    yield "body-short", None, node.raw(head % (len(body) + 1) + body).status
    yield "control", 303, node.raw(head % len(body) + body).status


def families(program):
    """Each family with what it yields: a name, what is wanted, and what came."""
    with provider(program) as node:
        yield "sp", [got for part in (logins, sessions, addresses, markup, logouts) for got in part(node)]
        yield "http", [*heads(node), *bodies(node)]
    with provider(program, "guard", "policy policy", policy=POLICY) as node:
        yield "guard", [*guard(node)]
