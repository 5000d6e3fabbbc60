"""Services that answer by JSON: the provider and the registrar. What they say is read within limits, and may be odd."""
import contextlib
import json

from vethlumi.formats import BadFormat
from vethlumi.office import NoAnswer, pause_of
from vethlumi.refusals import Refused, said_by

# The most letters of a text of theirs that people are shown.
LONGEST_TEXT = 200


def json_of(data):
    """The JSON object in bytes that somebody else has written."""
    try:
        found = json.loads(data)
    except (ValueError, RecursionError):
        raise BadFormat("the answer isn't JSON") from None
    if not isinstance(found, dict):
        raise BadFormat("the answer isn't a JSON object")
    return found


def complaint(found, names):
    """What the texts of these names say of a failure, on one line."""
    texts = [found.get(it) for it in names]
    return ": ".join(" ".join(it[:LONGEST_TEXT].split()) for it in texts if isinstance(it, str) and it.strip())


def accepted(answer, who, names):
    """An answer with status 200. Another one is a refusal, or says to ask again; `names` are its texts about that."""
    if answer.status == 200:
        return answer
    body, why = answer.body(), ""
    with contextlib.suppress(BadFormat):
        why = complaint(json_of(body), names)
    why = f"{who}: {why or said_by(answer.status, body.decode('utf-8', 'replace'))}"
    if answer.status == 429 or answer.status >= 500:
        raise NoAnswer(why, pause_of(answer.fields))
    raise Refused(0, "", why, "")


def ask(server, who, *request, **how):
    """What a server answers. If no answer comes, it is said whose."""
    try:
        return server.ask(*request, **how)
    except NoAnswer as fault:
        raise NoAnswer(f"{who}: {fault}", fault.pause) from None


def ask_json(server, who, names, *request, **how):
    """The JSON object that a server answers."""
    try:
        return json_of(accepted(ask(server, who, *request, **how), who, names).body())
    except BadFormat as fault:
        raise NoAnswer(f"{who}: {fault}", None) from None
