"""A block of codes, kept by lists: the free ones, those that each station has reserved, and every code's status."""

UNKNOWN_STATION = 6
ZERO_COUNT = 7
MORE_THAN_RESERVED = 8
OVER_LIMIT = 9
OWED_TO_OTHERS = 10
NOTHING_RESERVED = 11
SLIP_NOT_DRAWN = 12


class Block:
    """Codes 1 to n. Stations are pairs of a guarantee and a limit, numbered from 1. A call answers a pair: the number of
    its refusal or 0, and its answer, which is 0 where it is refused."""

    def __init__(self, site, number, n, stations):
        self.site = site
        self.number = number
        self.stations = stations
        self.free = list(range(1, n + 1))
        self.reserved = [[] for _ in stations]
        self.status = {code: ("free", 0) for code in self.free}

    def is_station(self, station):
        """Whether the table has the station."""
        return 1 <= station <= len(self.stations)

    def taken(self, station):
        """How many codes are the station's, whatever has become of them."""
        return sum(owner == station for _, owner in self.status.values())

    def lacking(self, station):
        """What the station's taken codes fall short of its guarantee."""
        return max(0, self.stations[station - 1][0] - self.taken(station))

    def owed(self, station):
        """What all the other stations lack."""
        others = range(1, len(self.stations) + 1)
        return sum(self.lacking(other) for other in others if other != station)

    def reserve(self, station, count):
        """Moves free codes to the station; answers how many are still free."""
        if not self.is_station(station):
            return UNKNOWN_STATION, 0
        if count == 0:
            return ZERO_COUNT, 0
        if self.taken(station) + count > self.stations[station - 1][1]:
            return OVER_LIMIT, 0
        if len(self.free) < count + self.owed(station):
            return OWED_TO_OTHERS, 0
        for _ in range(count):
            code = self.free.pop(0)
            self.reserved[station - 1].insert(0, code)
            self.status[code] = ("reserved", station)
        return 0, len(self.free)

    def give_back(self, station, count):
        """Moves codes of the station to the free ones; answers how many are free now."""
        if not self.is_station(station):
            return UNKNOWN_STATION, 0
        if count == 0:
            return ZERO_COUNT, 0
        if count > len(self.reserved[station - 1]):
            return MORE_THAN_RESERVED, 0
        for _ in range(count):
            code = self.reserved[station - 1].pop(0)
            self.free.insert(0, code)
            self.status[code] = ("free", 0)
        return 0, len(self.free)

    def draw(self, station):
        """Takes the station's first code; answers the slip with it: site, block, code and station."""
        if not self.is_station(station):
            return UNKNOWN_STATION, 0
        if not self.reserved[station - 1]:
            return NOTHING_RESERVED, 0
        code = self.reserved[station - 1].pop(0)
        self.status[code] = ("drawn", station)
        return 0, (self.site, self.number, code, station)

    def void(self, slip):
        """Makes the slip's code void; answers the code."""
        site, number, code, station = slip
        if not self.is_station(station):
            return UNKNOWN_STATION, 0
        if (site, number) != (self.site, self.number) or self.status.get(code) != ("drawn", station):
            return SLIP_NOT_DRAWN, 0
        self.status[code] = ("void", station)
        return 0, code
