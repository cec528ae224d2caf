"""What a signed Assertion says, and what it is presented for: another audience, address, time, request or subject. Each is signed with
the right key, as one that a stranger came by would be; and forms that say other things to other readers."""
import base64
import urllib.parse
import zlib

from attacking import made
from attacking.made import BEARER, IDP, SP, assertion, attribute, bare, conditions, confirmation, form, name_id, response, signed, statement, tag
from attacking.told import ALICE, ASKED, Case, around, example, posted

OTHER = "http://127.0.0.1:9/acs"
OPENED = (ASKED, "asked _r2 rel2 /app 1704068000000")


def of(name, wanted, **given):
    """The case of an Assertion that says this."""
    return around(name, wanted, signed(assertion(**given)))


def restricted(*lists):
    return "".join(tag("saml:AudienceRestriction", "".join(tag("saml:Audience", each) for each in audiences)) for audiences in lists)


def meant_for_another():
    """Audience, Recipient, Destination and Issuer."""
    near = {"longer": SP + "2", "cut": SP[:-1], "case": SP.upper(), "slash": SP + "/", "empty": "", "consumer": made.CONSUMER}
    addresses = {
        "other": OTHER, "slash": made.CONSUMER + "/", "query": made.CONSUMER + "?x", "case": made.CONSUMER.upper(), "cut": made.CONSUMER[:-1],
        "host": "http://127.0.0.1:8081@x/acs", "white": made.CONSUMER + " ",
    }
    return [
        *(of(f"audience-{name}", 17, stated=conditions(audience=each)) for name, each in near.items()),
        of("audience-none", 17, stated=conditions("")), of("conditions-none", 17, stated=""),
        of("audience-two-restrictions", 17, stated=conditions(restricted((SP,), ("urn:x",)))),
        of("audience-among-others", ALICE, stated=conditions(restricted(("urn:x", SP)))),
        of("audience-empty-restriction", 15, stated=conditions(restricted(()))),
        *(of(f"recipient-{name}", 18, confirmed=confirmation(recipient=each)) for name, each in {**addresses, "empty": ""}.items()),
        of("recipient-absent", 15, confirmed=confirmation(recipient=None)),
        *(posted(f"destination-{name}", 18, response(destination=each)) for name, each in addresses.items()),
        posted("destination-absent", ALICE, response(destination=None)), posted("destination-absent-signed", 18, made.signed_response(destination=None)),
        posted("destination-empty-signed", 18, made.signed_response(destination="")),
        of("issuer-other", 16, issuer="urn:x"), of("issuer-longer", 16, issuer=IDP + "2"),
        posted("issuer-of-response", 16, response(told=made.issued_by("urn:x"))),
        posted("issuer-of-response-twice", 8, response(told=made.issued_by() * 2)),
        of("issuer-twice", 15, mark=made.MARK + f"<saml:Issuer>{IDP}</saml:Issuer>"),
        posted("issuer-of-response-absent", ALICE, response(told="")),
    ]


def in_time():
    """Times, at their edges: the skew is 60 seconds."""
    early = confirmation(NotBefore=made.START)
    spelled = {
        "zone": "2024-01-01T00:05:00+02:00", "local": "2024-01-01T00:05:00", "hour": "2024-01-01T24:00:00Z", "date": "2024-02-30T00:00:00Z",
        "word": "never", "year": "12024-01-01T00:00:00Z", "early": "1969-12-31T23:59:59Z", "empty": "",
    }
    return [
        posted("last-moment", ALICE, now=1704067559999), posted("expired", 19, now=1704067560000), posted("first-moment", ALICE, now=1704067140000),
        posted("too-early", 19, now=1704067139999),
        posted("a-year-later", 19, now=1735689600000), of("conditions-expired", 19, stated=conditions(end="2023-12-31T23:59:00Z")),
        of("conditions-later", 19, stated=conditions(before="2024-01-01T00:01:01Z")),
        of("confirmation-expired", 19, confirmed=confirmation(end="2023-12-31T23:59:00Z")),
        of("confirmation-without-end", 15, confirmed=confirmation(end=None)),
        of("confirmation-not-before", 15, confirmed=early),
        of("conditions-without-times", ALICE, stated=conditions(before=None, end=None)), of("session-ended", 19, behind=statement(made.START)),
        of("session-not-ended", ALICE, behind=statement(made.END)),
        *(of(f"end-{name}", 15, confirmed=confirmation(end=each)) for name, each in spelled.items()),
    ]


def answers():
    """Requests and their relays: a login answers one that was asked here and is unused."""
    other = response(signed(assertion(confirmed=confirmation(request="_r2"))), request="_r2")
    spent, seen = f"opened _r1 {IDP} _a9 1704068000000", f"opened _r9 {IDP} _a1 1704068000000"
    return [
        posted("spent", 21, lines=(ASKED, spent)), posted("seen", 22, lines=(ASKED, seen)),
        posted("seen-once-it-expired", ALICE, lines=(ASKED, f"opened _r9 {IDP} _a1 {1704067200000}")),
        posted("seen-of-another-issuer", ALICE, lines=(ASKED, "opened _r9 urn:x _a1 1704068000000")),
        of("unsolicited", 15, confirmed=confirmation(request=None)), of("unsolicited-empty", 15, confirmed=confirmation(request="")),
        of("request-unknown", 20, confirmed=confirmation(request="_r2")),
        posted("nothing-asked", 20, lines=()), posted("request-expired", 20, lines=("asked _r1 rel1 /app 1704067200000",)),
        posted("request-of-response-differs", 20, response(request="_r2"), lines=OPENED),
        posted("request-of-response-absent", ALICE, response(request=None)), of("request-in-other-case", 20, confirmed=confirmation(request="_R1")),
        posted("relay-of-another", 23, other, lines=OPENED), posted("relay-right", ALICE, other, "rel2", lines=OPENED),
        posted("relay-absent", 23, relay=None), posted("relay-empty", 23, relay=""),
        posted("relay-longer", 23, relay="rel1x"), posted("relay-case", 23, relay="REL1"), posted("relay-url", 23, relay="https://evil.example/"),
        posted("relay-nul", 23, relay="rel1\0"),
        posted("relay-line", 23, relay="rel1\r\nSet-Cookie: sp_sid=x"),
    ]


def statuses():
    """The Response around the Assertion."""
    success = made.status()
    others = {"requester": "Requester", "responder": "Responder", "version": "VersionMismatch", "case": "success", "white": "Success ", "empty": ""}
    inner = tag("samlp:Status", tag("samlp:StatusCode", tag("samlp:StatusCode", Value=made.STATUS + "Success"), Value=made.STATUS + "Responder"))
    code = tag("samlp:StatusCode", Value=made.STATUS + "Success")
    return [
        *(posted(f"status-{name}", 9, response(said=made.status(value))) for name, value in others.items()),
        posted("status-success-inside", 9, response(said=inner)), posted("status-none", 8, response(said="")),
        posted("status-twice", 8, response(said=success + made.status("Responder"))),
        posted("status-code-twice", 8, response(said=tag("samlp:Status", code * 2))),
        posted("status-without-value", 8, response(said="<samlp:Status><samlp:StatusCode></samlp:StatusCode></samlp:Status>")),
        posted("response-version", 8, response(version="1.1")), posted("response-time", 8, response(at="now")),
        posted("response-id-empty", 8, response(ident="")), of("version", 15, version="1.1"), of("issued-at", 15, at="now"),
    ]


def subjects():
    """Conditions, confirmations and subjects that a careless reader passes over."""
    holder, sender = ("urn:oasis:names:tc:SAML:2.0:cm:" + each for each in ("holder-of-key", "sender-vouches"))
    stated = restricted((SP,))
    alice, admin = name_id("alice"), name_id("admin")
    return [
        of("condition-unknown", 15, stated=conditions(stated + "<saml:Condition></saml:Condition>")),
        of("condition-foreign", 15, stated=conditions(stated + '<x:Never xmlns:x="urn:x"></x:Never>')),
        of("condition-one-time", ALICE, stated=conditions(stated + "<saml:OneTimeUse></saml:OneTimeUse>")),
        of("condition-proxy", ALICE, stated=conditions(stated + tag("saml:ProxyRestriction", Count="0"))),
        of("conditions-twice", 15, stated=conditions() * 2), of("confirmation-none", 15, confirmed=""),
        of("confirmation-holder", 15, confirmed=confirmation(holder)),
        of("confirmation-sender", 15, confirmed=confirmation(sender)),
        of("confirmation-holder-first", ALICE, confirmed=confirmation(holder) + confirmation()),
        of("confirmation-expired-first", 19, confirmed=confirmation(end="2023-12-31T23:59:00Z") + confirmation()),
        of("confirmation-of-other-first", 18, confirmed=confirmation(recipient=OTHER) + confirmation()),
        of("confirmation-of-other-last", ALICE, confirmed=confirmation() + confirmation(recipient=OTHER)),
        of("confirmation-no-data", 15, confirmed=tag("saml:SubjectConfirmation", Method=BEARER)),
        of("statement-none", 15, behind=""), of("name-none", 15, subject=""), of("name-empty", "name ", subject=name_id("")),
        of("name-twice", 15, subject=alice + admin), of("name-encrypted-beside", 15, subject=alice + "<saml:EncryptedID></saml:EncryptedID>"),
        of("name-base", 15, subject=alice + "<saml:BaseID></saml:BaseID>"),
        of("subject-twice", 15, stated=tag("saml:Subject", admin + confirmation()) + conditions()),
        of("attribute-without-name", 15, behind=statement() + tag("saml:AttributeStatement", tag("saml:Attribute"))),
        of(
            "attribute-in-two-statements", "name alice\nattribute a 1\nattribute a 2",
            behind=statement() + tag("saml:AttributeStatement", attribute("a", "1")) + tag("saml:AttributeStatement", attribute("a", "2")),
        ),
        of("attribute-encrypted", ALICE, behind=statement() + tag("saml:AttributeStatement", "<saml:EncryptedAttribute></saml:EncryptedAttribute>")),
        of(
            "line-in-value", "name alice\nattribute a 1\\0aname\\20admin",
            behind=statement() + tag("saml:AttributeStatement", attribute("a", "1\nname admin")),
        ),
    ]


def forms():
    """Forms that say one thing to one reader and another thing to another."""
    good = form(response()).decode()
    field, _, relay = good.partition("&")
    value = field.partition("=")[2]
    plain = base64.b64encode(response().encode()).decode()
    evil = form(response(bare(made.FORGED)), None).decode()

    def body(name, wanted, text):
        return Case(name, wanted, text if isinstance(text, bytes) else text.encode())

    def spelled(name, wanted, text):
        return body(name, wanted, urllib.parse.urlencode({"SAMLResponse": text, "RelayState": "rel1"}))
    return [
        body("response-twice", 1, f"{good}&{evil}"), body("response-twice-forged-first", 1, f"{evil}&{good}"),
        body("response-twice-alike", 1, f"{good}&{field}"), body("response-twice-by-escape", 1, f"{good}&%53AMLResponse=x"),
        body("request-beside", 1, f"{good}&SAMLRequest={value}"), body("request-alone", 1, f"SAMLRequest={value}&{relay}"),
        body("name-escaped", ALICE, f"%53AMLResponse={value}&{relay}"),
        body("name-case", 1, f"samlresponse={value}&{relay}"), body("name-array", 1, f"SAMLResponse[]={value}&{relay}"),
        body("name-white", 1, f"+SAMLResponse={value}&{relay}"), body("name-cut-by-nul", 1, f"SAMLResponse%00={value}&{relay}"),
        body("other-pairs", ALICE, f"x=1&{good}&y"), body("relay-twice", 1, f"{good}&RelayState=rel1"),
        body("relay-twice-other", 1, f"{good}&RelayState=rel2"), body("relay-long", 1, f"{field}&RelayState={'x' * 81}"),
        body("relay-no-utf-8", 1, f"{good}%FF"), body("relay-overlong", 1, f"{field}&RelayState=%C1%B2el1"), body("semicolon", 2, f"{field};{relay}"),
        body("empty", 1, ""), body("nul", 1, "\0"),
        body("value-empty", 4, f"SAMLResponse=&{relay}"), body("value-absent", 4, f"SAMLResponse&{relay}"),
        body("json", 1, f'{{"SAMLResponse": "{plain}"}}'),
        body("multipart", 1, f'--x\r\nContent-Disposition: form-data; name="SAMLResponse"\r\n\r\n{plain}\r\n--x--'),
        body("raw-xml", 1, response()), body("utf-16-body", 1, good.encode("utf-16")),
        body("escaped-twice", 2, f"SAMLResponse={urllib.parse.quote(value)}&{relay}"), body("bad-escape", 2, f"SAMLResponse=%zz{value}&{relay}"),
        spelled("lines", ALICE, "\r\n".join(plain[i:i + 76] for i in range(0, len(plain), 76))), spelled("junk", 2, plain[:8] + "!" + plain[8:]),
        spelled("junk-behind", 2, plain + "!"), spelled("url-alphabet", 2, "-_" + plain[2:]),
        spelled("no-padding", 2, "QQ"), spelled("two-texts", 2, "QQ==" + plain), spelled("loose-bits", 2, "QR=="),
        spelled("padding-inside", 2, plain[:4] + "====" + plain[4:]),
        spelled("encoded-twice", 4, base64.b64encode(plain.encode()).decode()),
        spelled("deflated", 4, base64.b64encode(zlib.compress(response().encode())[2:-4]).decode()),
        spelled("bomb", 4, base64.b64encode(zlib.compress(b"<" * 10_000_000)[2:-4]).decode()),
        spelled("fits", 4, base64.b64encode(b"<" * 262_144).decode()), spelled("too-large", 3, base64.b64encode(b"<" * 262_145).decode()),
    ]


def registries():
    """A signed aggregate of metadata in place of the identity provider's own: nothing is taken from outside of what is signed."""
    descriptor = example("sp", "idp.xml").decode()
    opened = '<md:EntitiesDescriptor xmlns:md="urn:oasis:names:tc:SAML:2.0:metadata" ID="_g" validUntil="2030-01-01T00:00:00Z">'
    root = opened + made.MARK + "{}</md:EntitiesDescriptor>"
    plain = root.format(descriptor.replace(' xmlns:md="urn:oasis:names:tc:SAML:2.0:metadata"', ""))
    good = signed(plain, b"r" * 32, uri="#_g")
    nested = "<md:EntitiesDescriptor>" + descriptor.replace(IDP, "urn:evil") + "</md:EntitiesDescriptor>"
    wrapped = root.replace('"_g"', '"_h"').replace(made.MARK, "").format(descriptor + good)
    files = {
        "good": good, "unsigned": bare(plain), "changed": good.replace("8080", "9999"), "wrapped": wrapped, "doctype": "<!DOCTYPE a>" + good,
        "twice": signed(plain.replace("</md:EntitiesDescriptor>", plain[plain.index("<md:EntityDescriptor"):]), b"r" * 32, uri="#_g"),
        "other-key": signed(plain, b"x" * 32, uri="#_g"),
        "put-in": good.replace("</md:EntitiesDescriptor>", nested + "</md:EntitiesDescriptor>"),
        "same-id": good.replace("<md:EntityDescriptor", '<md:EntityDescriptor ID="_g"', 1),
    }
    line = "registry {}.xml registry_key " + IDP
    cases = [posted(name, ALICE if name == "good" else (3, f"bad {name}.xml 0\n"), lines=(ASKED, line.format(name))) for name in files]
    return cases, {"registry_key": b"r" * 32, **{f"{name}.xml": text for name, text in files.items()}}


FAMILIES = [
    ("meant", [posted("control", ALICE), *meant_for_another()]), ("time", [posted("control", ALICE), *in_time()]),
    ("answer", [posted("control", ALICE), *answers()]), ("status", [posted("control", ALICE), *statuses()]),
    ("subject", [posted("control", ALICE), *subjects()]), ("form", [posted("control", ALICE), *forms()]),
]
REGISTRY = ("registry", *registries())
