"""Metrics of an office, in the text format that Prometheus reads."""
import contextlib
import time

from vethlumi import doctor, formats


def figures(office, last):
    """Name, help and values of each metric; a value has labels and a number."""
    begun, now = time.monotonic(), time.time()
    cas, (rows, _), (_, found) = office.cas(), office.table(), office.krl()
    counts = {(kind, state): 0 for kind in ("user", "host") for state in ("pending", "signed", "revoked")}
    valid = {"user": 0, "host": 0}
    since = now
    for row in rows:
        counts[row.kind, row.state] += 1
        valid[row.kind] += row.is_valid(now)
        since = min(since, row.after) if row.state == "pending" else since
    # The first serial of a table that is empty is that of the first CA.
    following = max(cas[0][1], rows.last + 1)
    return [
        ("certificates", "Certificates by kind and state.",
         [(f'{{kind="{kind}",state="{state}"}}', count) for (kind, state), count in counts.items()]),
        ("certificates_valid", "Certificates that are signed, not revoked, and valid now.",
         [(f'{{kind="{kind}"}}', count) for kind, count in valid.items()]),
        ("pending_since_seconds", "Seconds since the first validity of those that wait for a signature began.",
         [("", round(now - since))]),
        ("serials_left", "Serials that are not handed out yet.", [("", max(0, last - following + 1))]),
        ("list_version", "Version of the key revocation list.", [("", found.version)]),
        ("list_versions_left", "Changes that the list can still have.", [("", formats.LAST_SERIAL - found.version)]),
        ("list_changed_timestamp_seconds", "When the list changed last, by the office's clock.", [("", found.moment)]),
        ("list_bytes", "Length of the list.", [("", found.length)]),
        ("cas", "CAs of the office, at most 8.", [("", len(cas))]),
        ("answer_seconds", "Seconds that the three pages took together.", [("", round(time.monotonic() - begun, 6))]),
    ]


def ends(job):
    """The same of the certificates by which the front and this client know each other, as far as it can be seen."""
    found, pem = {}, job.settings.file("certificate")
    if job.settings.url().startswith("https:"):
        with contextlib.suppress(*doctor.NO_END):
            found["front"] = doctor.front_end(job)
    if pem:
        with contextlib.suppress(*doctor.NO_END):
            found["client"] = doctor.pem_end(pem)
    return [("tls_ends_timestamp_seconds", "When the certificate of the front ends, and that of this client for it.",
             [(f'{{of="{name}"}}', moment) for name, moment in found.items()])] * bool(found)


def printed(name, text, values):
    lines = [f"office_{name}{labels} {value}\n" for labels, value in values]
    return f"# HELP office_{name} {text}\n# TYPE office_{name} gauge\n{''.join(lines)}"
