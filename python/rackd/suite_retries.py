"""Whether a master sends a request again whose reply did not come, or came spoilt."""
from __future__ import annotations

from typing import List, Sequence, Tuple

from .master import FCV, SRD
from .suite_rows import Request

# A reply that is late, as on a busy machine, may be taken for that of the next request. So a request decides nothing if
# it, or one of this number of requests before it, was sent more than once.
BEFORE = 3
# The bits of the function code in which an SRD of high and one of low priority agree.
KIND = 0x4E


def is_srd(request: Request) -> bool:
    """Whether a request is an SRD."""
    return request.frame.fc & KIND == SRD & KIND


def reply_of(row: str) -> str:
    """Returns the octets of the reply in a row of a cable's log, as they were before its fault."""
    return row.partition(" -> ")[0].rpartition(" ")[2]


def retries(requests: Sequence[Request], seen: Sequence[str], numbers: Sequence[int]) -> List[Tuple[Request, bool]]:
    """Returns the requests whose replies have these numbers, and whether the master has sent each again as it was.

    `requests` are all that the master has sent to a slave, and `seen` the replies of this slave as the cable has counted
    them, from 1. A request is left out if it decides nothing: its reply is not surely the one that met the fault, it had
    FCV 0, or requests shortly before it were sent again too.
    """
    sent = [request for request in requests if is_srd(request)]
    answered = [request for request in requests if request.is_answered]
    replies = [request.reply for request in answered]
    found = []
    for number in numbers:
        request = answered[number - 1]
        if request not in sent or replies[:number] != list(seen[:number]) or not request.frame.fc & FCV:
            continue
        place = sent.index(request)
        if not any(before.is_repeat for before in sent[max(0, place - BEFORE):place + 1]):
            found.append((request, place + 1 < len(sent) and sent[place + 1].octets == request.octets))
    return found
