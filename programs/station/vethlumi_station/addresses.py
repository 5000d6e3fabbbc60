"""To which of the addresses of a name this machine has a way."""
import contextlib
import socket

from vethlumi_common.addresses import numeric


def has_route(address):
    """Whether this machine knows a way to an address. Nothing is sent."""
    [(family, *_, place)] = numeric(address, 9)
    with contextlib.suppress(OSError), socket.socket(family, socket.SOCK_DGRAM) as it:
        it.connect(place)
        return True
    return False


def fronts_at(found, routed):
    """The addresses of a name, in an order that stays. A machine without IPv6, or without IPv4, reaches none of these
    addresses, although a front that has both may be reached by the other. `routed` has the kinds to which there was a
    way before: whoever takes it away doesn't have fronts left out."""
    families = {}
    for family, *_, place in found:
        families.setdefault(family, set()).add(place[0])
    routed.update(it for it, places in families.items() if any(map(has_route, places)))
    with_routes = [places for it, places in families.items() if it in routed]
    return sorted(set().union(*(with_routes or families.values())))
