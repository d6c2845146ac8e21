"""A page that shows a rack of the stand-in, and the entries and sentences that several of its tests use."""
from page.reading import WatchPage
from page.stand_in import Line, Rack, held, request, sample, slave
from support.clients import wait_for

NOT_HOLDER = "refused: NotHolder. Master 1 holds slave 5 since entry 3."
NOT_LISTED = "refused: NotListed. Master 3 is none of its lockers (1)."
NOT_ACTIVE = "refused: NotActive. Slave 12 is in Wait_Prm, where Chk_Cfg is off."
WRONG_IDENT = "wrong parameters: ident 80D2, the slave has 80A1."
PARAMETERS = "Lock_Req; watchdog 1000 ms; min TSDR 11; ident 80A1; groups 1, 3"
OVERVIEW = ("2 of 5 slaves are held by masters 1, 2; nobody holds slave 9, which master 1 may lock; nobody holds slave 12, "
            "which masters 2, 3 may lock; nobody holds slave 20, which no master may lock.")
# Places of the entries of the sample that are no routine, and of those that are faults, changes and refusals.
NEWS, FAULTS = [14, 12, 11, 10, 8, 6, 5, 4, 3, 2, 1], [14, 12, 11, 10, 8, 2]
CHANGES, REFUSED = [8, 6, 5, 4, 3], [14, 12, 11, 10]


class ShownRack:
    """A page in a tab of a browser, and the stand-in whose rack it shows."""

    def __init__(self, server, tab):
        self.server, self.tab, self.page = server, tab, WatchPage(tab)

    @property
    def rack(self):
        return self.server.rack

    def open(self, rack=None, fragment=""):
        """Opens the page of a rack, by default of the sample, and returns it."""
        self.server.rack = rack or sample()
        self.page.open(self.server.url + fragment)
        return self.page

    def follow(self, *entries):
        """Adds entries, and waits until the page has drawn them: only then it asks for what comes after them."""
        self.rack.add(*entries)
        number = self.rack.number
        wait_for(lambda: any(query.endswith(f"&after={number}") for query in list(self.rack.queries)), every=0.03)


def large_line(holding):
    """Returns a line of 16 masters and slaves 20 to 83. The first masters hold a slave each, in turn; nobody holds slave 83."""
    masters = list(range(1, 17))
    slaves = [held(address, masters[at % holding], at + 1) if holding else slave(address)
              for at, address in enumerate(range(20, 83))]
    return Line(1, masters, [*slaves, slave(83, lockers=[1, 2, 3, 7])])


def large_rack(holding):
    """Returns a rack of eight lines. The first one is large, and the others have three slaves."""
    others = [Line(number, [1, 2], [held(5, 1, 3), slave(6), slave(7)]) for number in range(2, 9)]
    return Rack(large_line(holding), *others)


def refusal(place, master=2, address=5, sentence=NOT_HOLDER, rule="NotHolder", **fields):
    """Returns an entry: a Set_Prm that is refused."""
    return request(place, master, address, "Set_Prm", sentence, rule, **fields)


def exchanges(first, count):
    """Returns entries that are routine."""
    return [request(place, 1, 5, "Data_Exchange", reply="inputs 01 02") for place in range(first, first + count)]
