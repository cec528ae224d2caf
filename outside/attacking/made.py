"""Responses, requests and signatures as an identity provider or a stranger would write them. It shares nothing with the program: each
element that is signed is written here in its exclusive canonical form, and its digest and tag are computed over that text."""
import base64
import hashlib
import hmac
import urllib.parse
from xml.sax.saxutils import escape

SAML = "urn:oasis:names:tc:SAML:2.0:assertion"
SAMLP = "urn:oasis:names:tc:SAML:2.0:protocol"
DS = "http://www.w3.org/2000/09/xmldsig#"
EXCLUSIVE = "http://www.w3.org/2001/10/xml-exc-c14n#"
HMAC = "http://www.w3.org/2001/04/xmldsig-more#hmac-sha256"
SHA256 = "http://www.w3.org/2001/04/xmlenc#sha256"
ENVELOPED = DS + "enveloped-signature"
BEARER = "urn:oasis:names:tc:SAML:2.0:cm:bearer"
POST = "urn:oasis:names:tc:SAML:2.0:bindings:HTTP-POST"
STATUS = "urn:oasis:names:tc:SAML:2.0:status:"
IDP, SP = "urn:example:idp", "urn:example:sp"
CONSUMER = "http://127.0.0.1:8081/acs"
START, END = "2024-01-01T00:00:00.000Z", "2024-01-01T00:05:00.000Z"

# where the Signature of an element goes
MARK = "<@signature@>"
KEY = b"k" * 32
DECLARED = f' xmlns:ds="{DS}"'


def tag(name, inside="", **attributes):
    """An element in canonical form, without the attributes whose value is none."""
    written = "".join(f' {key}="{value}"' for key, value in sorted(attributes.items()) if value is not None)
    return f"<{name}{written}>{inside}</{name}>"


def method(name, algorithm, inside=""):
    return tag(name, inside, Algorithm=algorithm)


def prefixes(listed, uri=EXCLUSIVE):
    return f'<ec:InclusiveNamespaces xmlns:ec="{uri}" PrefixList="{listed}"></ec:InclusiveNamespaces>'


ENVELOPED_TRANSFORM = method("ds:Transform", ENVELOPED)
EXCLUSIVE_TRANSFORM = method("ds:Transform", EXCLUSIVE)
TRANSFORMS = ENVELOPED_TRANSFORM + EXCLUSIVE_TRANSFORM


def encoded(data):
    return base64.b64encode(data).decode()


def digest_of(text):
    return encoded(hashlib.sha256(text.encode()).digest())


def reference(digest, uri="#_a1", transforms=TRANSFORMS, digesting=method("ds:DigestMethod", SHA256), value=None):
    inside = tag("ds:Transforms", transforms) + digesting + (tag("ds:DigestValue", digest) if value is None else value)
    return tag("ds:Reference", inside, URI=uri)


def signed_info(references, canonicalization=method("ds:CanonicalizationMethod", EXCLUSIVE), signing=method("ds:SignatureMethod", HMAC)):
    return tag("ds:SignedInfo", canonicalization + signing + references)


def canonical_info(info):
    """A SignedInfo as it stands alone: with the declaration that it has from its Signature."""
    return info.replace("<ds:SignedInfo", "<ds:SignedInfo" + DECLARED, 1)


def value_of(info, key=KEY):
    return encoded(hmac.new(key, canonical_info(info).encode(), hashlib.sha256).digest())


def signature_of(info, value, behind=""):
    return f"<ds:Signature{DECLARED}>{info}{tag('ds:SignatureValue', value)}{behind}</ds:Signature>"


def signature(digest, key=KEY, behind="", info=None, **parts):
    """A Signature over this digest, right under the key whatever its parts are."""
    given = {name: parts.pop(name) for name in ("canonicalization", "signing") if name in parts}
    info = info or signed_info(reference(digest, **parts), **given)
    return signature_of(info, value_of(info, key), behind)


def signed(element, key=KEY, **parts):
    """The element with its Signature in place of the mark."""
    return element.replace(MARK, signature(digest_of(element.replace(MARK, "")), key, **parts), 1)


def bare(element):
    """The element without a Signature."""
    return element.replace(MARK, "")


# ---- assertions

def conditions(inside=None, before=START, end=END, audience=SP):
    stated = f"<saml:AudienceRestriction><saml:Audience>{audience}</saml:Audience></saml:AudienceRestriction>"
    return tag("saml:Conditions", stated if inside is None else inside, NotBefore=before, NotOnOrAfter=end)


def confirmation(way=BEARER, request="_r1", end=END, recipient=CONSUMER, **others):
    data = tag("saml:SubjectConfirmationData", InResponseTo=request, NotOnOrAfter=end, Recipient=recipient, **others)
    return tag("saml:SubjectConfirmation", data, Method=way)


def name_id(name):
    return tag("saml:NameID", name)


def statement(end=None, at=START):
    context = tag("saml:AuthnContext", tag("saml:AuthnContextClassRef", "urn:oasis:names:tc:SAML:2.0:ac:classes:Password"))
    return tag("saml:AuthnStatement", context, AuthnInstant=at, SessionIndex="_s1", SessionNotOnOrAfter=end)


def attribute(name, *values):
    return tag("saml:Attribute", "".join(tag("saml:AttributeValue", each) for each in values), Name=name)


def assertion(name="alice", ident="_a1", issuer=IDP, subject=None, confirmed=None, stated=None, behind=None, mark=MARK, **given):
    """An Assertion in canonical form, with a mark for its Signature."""
    version, at = given.get("version", "2.0"), given.get("at", START)
    inside = (f"<saml:Issuer>{issuer}</saml:Issuer>{mark}"
              + tag("saml:Subject", (name_id(name) if subject is None else subject) + (confirmation() if confirmed is None else confirmed))
              + (conditions() if stated is None else stated) + (statement() if behind is None else behind))
    opened = f'<saml:Assertion xmlns:saml="{SAML}"{given.get("declared", "")} ID="{ident}" IssueInstant="{at}" Version="{version}">'
    return f"{opened}{inside}</saml:Assertion>"


FORGED = assertion("admin", "_evil")
GOOD = signed(assertion())


# ---- messages

def issued_by(issuer=IDP):
    return f'<saml:Issuer xmlns:saml="{SAML}">{issuer}</saml:Issuer>'


def status(value="Success", inside=""):
    return tag("samlp:Status", tag("samlp:StatusCode", Value=STATUS + value) + inside)


def response(inside=GOOD, ident="_m1", mark="", told=None, said=None, destination=CONSUMER, request="_r1", **given):
    """A Response in canonical form around this, with a mark for its Signature where one is given."""
    attributes = {
        "Destination": destination, "ID": ident, "InResponseTo": request, "IssueInstant": given.get("at", START), "Version": given.get("version", "2.0"),
    }
    written = "".join(f' {key}="{value}"' for key, value in attributes.items() if value is not None)
    front = (issued_by() if told is None else told) + mark + given.get("front", "") + (status() if said is None else said)
    return f'<samlp:Response xmlns:samlp="{SAMLP}"{given.get("declared", "")}{written}>{front}{inside}</samlp:Response>'


def signed_response(inside=None, key=KEY, ident="_m1", **given):
    """A Response whose own Signature covers an Assertion that has none."""
    made = response(bare(assertion()) if inside is None else inside, ident, MARK, **given)
    return signed(made, key, uri="#" + ident)


# ---- forms

def form(message, relay="rel1", field="SAMLResponse"):
    data = message if isinstance(message, bytes) else message.encode()
    pairs = [(field, base64.b64encode(data))] + ([("RelayState", relay)] if relay is not None else [])
    return urllib.parse.urlencode(pairs).encode()


def text(words):
    return escape(words)
