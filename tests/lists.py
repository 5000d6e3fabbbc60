"""Lists of what is revoked, field by field by PROTOCOL.krl, and as the office writes them."""
from asking import key_blob, string


def header(version=1, date=3000, flags=0, reserved=b"", comment=b"", form=1):
    start = b"SSHKRL\n\0" + form.to_bytes(4, "big")
    return start + numbers(version, date, flags) + string(reserved) + string(comment)


def section(key_byte, *parts, reserved=b"", kind=1, blob=None):
    data = string(key_blob(key_byte) if blob is None else blob) + string(reserved) + b"".join(parts)
    return bytes([kind]) + string(data)


def numbers(*values):
    return b"".join(it.to_bytes(8, "big") for it in values)


def single(*serials):
    return b"\x20" + string(numbers(*serials))


def ranged(lo, hi):
    return b"\x21" + string(numbers(lo, hi))


def key_ids(*ids):
    return b"\x23" + string(b"".join(string(it) for it in ids))


def runs_of(serials):
    """The runs of a set of serials, as pairs of the first and the last."""
    runs = []
    for serial in sorted(serials):
        if runs and runs[-1][1] == serial - 1:
            runs[-1][1] = serial
        else:
            runs.append([serial, serial])
    return runs


def published(revoked, ids, version=1):
    """The list of the serials of each CA, and of key ids, as the office writes it."""
    text = header(version)
    for key_byte, serials in revoked:
        if not serials and not ids:
            continue
        runs = runs_of(serials)
        listed = [it for lo, hi in runs if hi - lo < 2 for it in range(lo, hi + 1)]
        parts = [single(*listed)] if listed else []
        parts += [ranged(lo, hi) for lo, hi in runs if hi - lo >= 2]
        parts += [key_ids(*sorted(ids))] if ids else []
        text += section(key_byte, *parts)
    return text
