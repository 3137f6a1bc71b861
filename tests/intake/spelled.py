"""Forms in which people and programs hand octets on, each by a rule: what makes it of a document, how it came, and the
claim of its label. They are made by Python's own modules or by hand, and never by the package that is tried."""
import base64
import binascii
import json
import quopri
import textwrap
import urllib.parse
from email import encoders
from email.mime.base import MIMEBase
from email.mime.multipart import MIMEMultipart

from made import pem_of, url_of


def lines_of(octets, label):
    """The lines of PEM, without their ends."""
    return pem_of(octets, label).decode().splitlines()


def prefixed(mark):
    return lambda octets, label: "".join(f"{mark}{it}\n" for it in lines_of(octets, label)).encode()


def joined(begin, end, between="\n", after="\n"):
    """The lines of PEM, each between these, in a text."""
    return lambda octets, label: (between.join(f"{begin}{it}{end}" for it in lines_of(octets, label)) + after).encode()


def text_of(change):
    """PEM as text, changed."""
    return lambda octets, label: change(pem_of(octets, label).decode()).encode()


def as_member(name, of):
    """The text as a member of an object of JSON."""
    return lambda octets, label=None: json.dumps({"id": 7, name: of(octets, label).decode()}).encode()


def base64_of(of):
    return lambda octets, label: base64.b64encode(of(octets, label))


def field(name, of, form="{}: {}\n"):
    return lambda octets, label: form.format(name, of(octets, label).decode()).encode()


def dump(octets, _=None):
    """What xxd prints (xxd.1, "-g 2")."""
    rows = []
    for at in range(0, len(octets), 16):
        row = octets[at : at + 16]
        groups = " ".join(row[it : it + 2].hex() for it in range(0, len(row), 2))
        shown = "".join(chr(it) if 32 <= it < 127 else "." for it in row)
        rows.append(f"{at:08x}: {groups:<39}  {shown}\n")
    return "".join(rows).encode()


def hexdump(octets, _=None):
    """What hexdump -C prints."""
    rows = []
    for at in range(0, len(octets), 16):
        row = octets[at : at + 16]
        halves = "  ".join(" ".join(f"{it:02x}" for it in half) for half in (row[:8], row[8:]) if half)
        shown = "".join(chr(it) if 32 <= it < 127 else "." for it in row)
        rows.append(f"{at:08x}  {halves:<48}  |{shown}|\n")
    return ("".join(rows) + f"{len(octets):08x}\n").encode()


def od(octets, _=None):
    """What od -tx1 prints, places in octal."""
    rows = [f"{at:07o} {octets[at:at + 16].hex(' ')}\n" for at in range(0, len(octets), 16)]
    return ("".join(rows) + f"{len(octets):07o}\n").encode()


def array(octets, _=None):
    """What xxd -i prints of a file."""
    rows = [", ".join(f"0x{it:02x}" for it in octets[at : at + 12]) for at in range(0, len(octets), 12)]
    text = ",\n  ".join(rows)
    return f"unsigned char doc_der[] = {{\n  {text}\n}};\nunsigned int doc_der_len = {len(octets)};\n".encode()


def mail(octets, label, text=None):
    """A mail with an attachment in base64, by Python's email."""
    # (a boundary of Python's own is by chance, and random inputs are to come again by their seed)
    whole = MIMEMultipart(boundary="===============0123456789==")
    whole["Subject"] = "our request"
    part = MIMEBase("application", "octet-stream")
    part.set_payload(text or octets)
    encoders.encode_base64(part)
    whole.attach(part)
    return whole.as_bytes()


def jws(octets, _=None):
    """The flattened JSON of a JWS (RFC 7515 section 7.2.2) as ACME has it (RFC 8555 section 7.4)."""
    payload = url_of(json.dumps({"csr": url_of(octets).decode()}).encode()).decode()
    header = url_of(b'{"alg":"ES256"}').decode()
    return json.dumps({"protected": header, "payload": payload, "signature": "AAAA"}).encode()


def compact(octets, _=None):
    """The compact form of the same (RFC 7515 section 7.1)."""
    payload = json.dumps({"csr": url_of(octets).decode()}).encode()
    return b".".join([url_of(b'{"alg":"ES256"}'), url_of(payload), b"AAAA"])


def folded(name, octets, width=60, mark=">"):
    """A field of YAML in a folded or literal block."""
    text = base64.b64encode(octets).decode()
    return f"spec:\n  {name}: {mark}\n{textwrap.indent(textwrap.fill(text, width), '    ')}\n  other: x\n".encode()


def bare(octets, _=None):
    return octets


def plain(octets, _=None):
    return base64.b64encode(octets)


def url(octets, _=None):
    return url_of(octets)


# What any reasonable intake takes.
PEM_FORMS = [
    ("PEM as it is generated", pem_of, "PEM"),
    ("CR LF", text_of(lambda it: it.replace("\n", "\r\n")), "PEM"),
    ("CR", text_of(lambda it: it.replace("\n", "\r")), "PEM"),
    ("no end of line at the end", text_of(str.strip), "PEM"),
    ("a byte order mark", text_of(lambda it: f"\ufeff{it}"), "PEM"),
    ("UTF-16 with its mark", lambda *it: pem_of(*it).decode().encode("utf-16"), "PEM in UTF-16"),
    ("UTF-16, big-endian", lambda *it: b"\xfe\xff" + pem_of(*it).decode().encode("utf-16-be"), "PEM in UTF-16"),
    ("UTF-16 without a mark", lambda *it: pem_of(*it).decode().encode("utf-16-le"), "PEM in UTF-16"),
    ("UTF-32", lambda *it: pem_of(*it).decode().encode("utf-32"), "PEM in UTF-32"),
    ("UTF-16, other letters before", lambda *it: ("\u041c\n" + pem_of(*it).decode()).encode("utf-16"), "PEM in UTF-16"),
    ("behind a block without an end of line", lambda *it: b"-----BEGIN X509 CRL-----\nMAMCAQU=\n-----END X509 CRL-----"
     + pem_of(*it), "PEM"),
    ("text around it", text_of(lambda it: f"Dear CA,\n\n{it}\nKind regards, Müller\n"), "PEM"),
    ("prose that speaks of boundaries", text_of(
        lambda it: f"what is between -----BEGIN CERTIFICATE----- and -----END CERTIFICATE----- is:\n{it}"), "PEM"),
    ("indented", prefixed("    "), "PEM"), ("by tabs", prefixed("\t"), "PEM"),
    ("blank lines between", text_of(lambda it: it.replace("\n", "\n\n")), "PEM"),
    ("blanks at the ends", text_of(lambda it: it.replace("\n", "  \n")), "PEM"),
    ("quoted in a mail", prefixed("> "), "PEM"), ("quoted twice", prefixed("> > "), "PEM"),
    ("quoted twice, without blanks", prefixed(">>"), "PEM"),
    ("a comment of shell", prefixed("# "), "PEM"), ("a comment of C++", prefixed("// "), "PEM"),
    ("a comment of SQL", prefixed("-- "), "PEM"), ("a comment of lisp", prefixed(";; "), "PEM"),
    ("a block comment", lambda *it: b"/*\n" + prefixed(" * ")(*it) + b" */\n", "PEM"),
    ("in a fence", text_of(lambda it: f"see:\n```\n{it}```\n"), "PEM"),
    ("in a quoted fence", lambda *it: b"> ```pem\n" + prefixed("> ")(*it) + b"> ```\n", "PEM"),
    ("in a here-document", text_of(lambda it: f"cat > x.pem <<'EOF'\n{it}EOF\n"), "PEM"),
    ("a block scalar of YAML", text_of(lambda it: "csr: |\n" + textwrap.indent(it, "  ")), "PEM"),
    ("an item of a list of YAML", text_of(lambda it: "items:\n- |\n" + textwrap.indent(it, "  ")), "PEM"),
    ("folded by YAML", text_of(lambda it: f"csr: >\n  {' '.join(it.split(chr(10)))}\n"), "PEM"),
    ("TOML's three quotes", text_of(lambda it: f'csr = """\n{it}"""\n'), "PEM"),
    (".env, ends of lines written out", text_of(lambda it: 'CSR="' + it.strip().replace("\n", "\\n") + '"\n'), "PEM"),
    (".env, CR LF written out", text_of(lambda it: 'CSR="' + it.strip().replace("\n", "\\r\\n") + '"\n'), "PEM"),
    (".env over several lines", text_of(lambda it: f'CSR="{it.strip()}"\nOTHER=1\n'), "PEM"),
    ("a string of C", joined('    "', '\\n"', after=";\n"), "PEM"), ("of Go", joined('"', '\\n"', " +\n"), "PEM"),
    ("of JavaScript", joined("'", "\\n'", " +\n", ";\n"), "PEM"), ("of Python", joined('b"', '\\n"'), "PEM"),
    ("of PHP", joined('"', '\\n"', " .\n", ";\n"), "PEM"), ("lines with a backslash", joined("", "\\n\\"), "PEM"),
    ("strings without written ends", joined('"', '"', ",\n"), "PEM"),
    ("a log with JSON", text_of(lambda it: f'2026-11-29 INFO got {json.dumps({"csr": it})} from 1.2.3.4\n'), "PEM"),
    ("HTML with <br>", text_of(lambda it: f"<p>{it.strip()}</p>\n".replace("\n", "<br>\n")), "PEM"),
    ("HTML in one line", text_of(lambda it: f"<pre>{it.strip()}</pre>".replace("\n", "<br/>")), "PEM"),
    ("HTML, each line a paragraph", joined("<p>", "</p>"), "PEM"),
    ("XML, CR as a reference", text_of(lambda it: f"<a><csr>{it.strip()}</csr></a>".replace("\n", "&#13;\n")), "PEM"),
    ("XML, ends as references", text_of(lambda it: f"<a><csr>{it.strip()}</csr></a>".replace("\n", "&#10;")), "PEM"),
    ("CDATA", text_of(lambda it: f"<a><![CDATA[{it}]]></a>"), "PEM"),
    ("HTML, + and = escaped", text_of(lambda it: f"<b>{it}</b>".replace("+", "&#43;").replace("=", "&#61;")), "PEM"),
    ("a body in quoted-printable", lambda *it: quopri.encodestring(pem_of(*it)), "PEM"),
]
CONTAINED = [
    ("JSON", as_member("csr", pem_of), "PEM in JSON"), ("JSON, any name", as_member("blob", pem_of), "PEM in JSON"),
    ("JSON, / escaped", lambda *it: as_member("csr", pem_of)(*it).replace(b"/", b"\\/"), "PEM in JSON"),
    ("JSON, + escaped", lambda *it: as_member("csr", pem_of)(*it).replace(b"+", b"\\u002B"), "PEM in JSON"),
    ("JSON in JSON", as_member("a", as_member("csr", pem_of)), "PEM in JSON in JSON"),
    ("JSON, each line", lambda *it: b'{"a": 1}\n' + as_member("csr", pem_of)(*it) + b"\n", "PEM in JSON"),
    ("base64 of PEM", base64_of(pem_of), "base64 of PEM"),
    ("base64 of PEM, in lines", lambda *it: base64.encodebytes(pem_of(*it)), "base64 of PEM"),
    ("base64 of UTF-16", base64_of(lambda *it: pem_of(*it).decode().encode("utf-16")), "base64 of PEM in UTF-16"),
    ("base64 of base64 of PEM", base64_of(base64_of(pem_of)), "base64 of base64 of PEM"),
    ("a string of JSON alone", lambda *it: json.dumps(pem_of(*it).decode()).encode(), "PEM in JSON"),
    ("a string of JSON alone, of base64", lambda *it: json.dumps(base64_of(pem_of)(*it).decode()).encode(),
     "base64 of PEM in JSON"),
    ("a string of Python", lambda *it: repr(base64_of(pem_of)(*it)).encode(), "base64 of PEM"),
    ("a dump of PEM", lambda *it: dump(pem_of(*it)), "hexadecimal of PEM"),
    ("a mail, UTF-16", lambda *it: mail(*it, pem_of(*it).decode().encode("utf-16")),
     "base64 of PEM in UTF-16 in a message"),
    ("YAML of base64 of PEM", field("  request", base64_of(pem_of), "spec:\n{}: {}\n  x: y\n"), "base64 of PEM"),
    ("YAML, quoted", field("request", base64_of(pem_of), '{}: "{}"\n'), "base64 of PEM"),
    ("YAML, folded", lambda *it: folded("request", pem_of(*it)), "base64 of PEM"),
    ("YAML, literal", lambda *it: folded("tls.key", pem_of(*it), 76, "|"), "base64 of PEM"),
    ("YAML, stripped", lambda *it: folded("request", pem_of(*it), 64, ">-"), "base64 of PEM"),
    ("base64 of PEM in JSON", as_member("tls.key", base64_of(pem_of)), "base64 of PEM in JSON"),
    ("a form, + for blanks", lambda *it: b"x=1&csr=" + urllib.parse.quote_plus(pem_of(*it)).encode(),
     "PEM, percent-encoded"),
    ("percent-encoded", lambda *it: urllib.parse.quote(pem_of(*it), safe="").encode(), "PEM, percent-encoded"),
    ("a query in a log", lambda *it: b"GET /e?csr=" + urllib.parse.quote(pem_of(*it), safe="").encode() + b" HTTP/1\n",
     "PEM, percent-encoded"),
    ("a mail", lambda *it: mail(*it, pem_of(*it)), "base64 of PEM in a message"),
    ("an upload", lambda *it: b"Content-Type: multipart/form-data; boundary=XyZ\r\n\r\n--XyZ\r\nContent-Disposition: "
     b'form-data; name="csr"\r\n\r\n' + pem_of(*it) + b"\r\n--XyZ--\r\n", "PEM in a message"),
]
BARE_FORMS = [
    ("the octets", bare, "octets"), ("base64", plain, "base64"),
    ("base64 in lines", lambda it, _: base64.encodebytes(it), "base64"),
    ("base64, CR LF, indented", lambda it, _: base64.encodebytes(it).replace(b"\n", b"\r\n  "), "base64"),
    ("hexadecimal", lambda it, _: it.hex().encode(), "hexadecimal"),
    ("in capitals", lambda it, _: it.hex().upper().encode() + b"\n", "hexadecimal"),
    ("with colons", lambda it, _: it.hex(":").encode(), "hexadecimal"),
    ("with blanks, in lines", lambda it, _: textwrap.fill(it.hex(" "), 48).encode(), "hexadecimal"),
    ("after 0x", lambda it, _: b"0x" + it.hex().encode(), "hexadecimal"),
    ("each after 0x", lambda it, _: ", ".join(f"0x{o:02x}" for o in it).encode(), "hexadecimal"),
    ("each after \\x", lambda it, _: "".join(f"\\x{o:02x}" for o in it).encode(), "hexadecimal"),
    ("a string of \\x", lambda it, _: ('"' + "".join(f"\\x{o:02x}" for o in it) + '"\n').encode(), "hexadecimal"),
    ("PostgreSQL's bytea", lambda it, _: b"\\x" + it.hex().encode(), "hexadecimal"),
    ("SQL's X''", lambda it, _: b"X'" + it.hex().encode() + b"'", "hexadecimal"),
    ("each after 0x, UTF-16", lambda it, _: ", ".join(f"0x{o:02x}" for o in it).encode("utf-16-le"),
     "hexadecimal in UTF-16"),
    ("an array of C", array, "hexadecimal"), ("a dump of xxd", dump, "hexadecimal"),
    ("of hexdump", hexdump, "hexadecimal"), ("of od", od, "hexadecimal"),
    ("xxd -p", lambda it, _: textwrap.fill(it.hex(), 60).encode() + b"\n", "hexadecimal"),
    ("JSON of base64", as_member("pem", plain), "base64 in JSON"),
    ("JSON, any name", as_member("x", plain), "base64 in JSON"),
    ("YAML of base64", field("csr", plain), "base64"), (".env of base64", field("KEY", plain, "{}={}\n"), "base64"),
    ("LDIF", lambda it, _: b"dn: cn=x\npkcs10:: " + base64.encodebytes(it).replace(b"\n", b"\n ").strip(), "base64"),
    ("XML of base64", field("csr", plain, "<r><{0}>{1}</{0}></r>"), "base64"),
    ("XML of base64, a prefix", field("w:Token", plain, "<r><{0} t='x'>{1}</{0}></r>"), "base64"),
    ("a data URI", lambda it, _: b"data:application/pkcs10;base64," + base64.b64encode(it), "base64"),
    ("a data URI in JSON", as_member("csr", lambda it, _: b"data:application/pkcs10;base64," + base64.b64encode(it)),
     "base64 in JSON"),
    ("a form of base64", lambda it, _: b"csr=" + urllib.parse.quote_plus(base64.b64encode(it)).encode(),
     "base64, percent-encoded"),
    ("a mail", mail, "base64 in a message"),
    ("EST", lambda it, _: b"POST /simpleenroll HTTP/1.1\r\nContent-Type: application/pkcs10\r\n"
     b"Content-Transfer-Encoding: base64\r\n\r\n" + base64.encodebytes(it), "base64 in a message"),
    ("a string of Python", lambda it, _: repr(base64.b64encode(it)).encode(), "base64"),
    ("a line of base64", lambda it, _: binascii.b2a_base64(it), "base64"),
]
URL_FORMS = [("base64url", url, "base64url"),
             ("in a query", lambda it, _=None: b"https://x/e?a=1&csr=" + url_of(it), "base64url"),
             ("with padding", lambda it, _=None: base64.urlsafe_b64encode(it), "base64url"),
             ("in JSON", as_member("csr", url), "base64url in JSON"),
             ("a JWS", jws, "base64url in JSON in a JWS"), ("a compact JWS", compact, "base64url in JSON in a JWS")]
