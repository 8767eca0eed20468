"""The stand-in receiver: its settings, the step that one command takes, and the counts of its satellite masks."""

from dataclasses import dataclass, replace

from port_forms import ALL_GLONASS, ALL_GPS, is_port_mask, is_rate
from refusal import Refusal
from sentences import read_sentence, write_sentence
from wide import MOST_ZONE

TALKING = 4


@dataclass(frozen=True)
class Port:
    """What one port is set to."""
    rate: int = 4800
    protocol: int = TALKING
    mask: int = 0x007F

    def in_range(self):
        """Says whether a port can be set so."""
        return is_rate(self.rate) and 0 <= self.protocol <= 4 and is_port_mask(self.mask)


@dataclass(frozen=True)
class Settings:
    """All settings; without arguments, those at the start."""
    ports: tuple = (Port(), Port())
    datum: int = 0
    zone: int = 0
    gps: int = ALL_GPS
    glonass: int = ALL_GLONASS
    code: int = 0

    def in_range(self):
        """Says whether every setting is one that the receiver can have."""
        return (all(port.in_range() for port in self.ports)
                and 0 <= self.datum <= 4
                and -MOST_ZONE <= self.zone <= MOST_ZONE
                and 0 <= self.gps <= ALL_GPS
                and 0 <= self.glonass <= ALL_GLONASS
                and 0 <= self.code <= 255)

    def with_port(self, number, port):
        """Gives the settings with one port replaced."""
        ports = list(self.ports)
        ports[number] = port
        return replace(self, ports=tuple(ports))

    def numbers(self):
        """Gives the settings as eleven numbers."""
        ports = [number for port in self.ports for number in (port.rate, port.protocol, port.mask)]
        return ports + [self.datum, self.zone, self.gps, self.glonass, self.code]


def settings_from(numbers):
    """Gives the settings that eleven numbers say; their ranges are not looked at."""
    return Settings((Port(*numbers[0:3]), Port(*numbers[3:6])), *numbers[6:11])


def change_port(settings, arrival, record):
    """Gives the settings after a PIRPR and the record of its reply, which is about the named port."""
    has_port, named, has_rate, rate, _, protocol, _, mask = record
    number = named if has_port else arrival
    if has_rate:
        settings = settings.with_port(number, Port(rate, protocol, mask))
    port = settings.ports[number]
    return settings, [number, port.rate, port.protocol, port.mask]


def change_datum(settings, arrival, record):
    """Gives the settings after a PIRTR and the record of its reply."""
    has_datum, datum, _, zone = record
    if has_datum:
        settings = replace(settings, datum=datum, zone=zone)
    return settings, [settings.datum, settings.zone]


def change_masks(settings, arrival, record):
    """Gives the settings after a PIRSR and the record of its reply."""
    has_gps, gps, has_glonass, glonass = record
    if has_gps:
        settings = replace(settings, gps=gps)
    if has_glonass:
        settings = replace(settings, glonass=glonass)
    return settings, [settings.gps, settings.glonass]


def test_itself(settings, arrival, record):
    """Gives the settings after a PIRER, which are the same, and the record of its reply."""
    return settings, [settings.code]


COMMANDS = {
    b"PIRPR": (change_port, b"PIRPA"),
    b"PIRTR": (change_datum, b"PIRTA"),
    b"PIRSR": (change_masks, b"PIRSA"),
    b"PIRER": (test_itself, b"PIREA"),
}


def step(settings, arrival, line, room):
    """Gives reply and settings after one command; refuses with 5 at line 0, 10, 1 to 5, 9, then 8."""
    if arrival not in (0, 1) or not settings.in_range():
        raise Refusal(5, 0, 0)
    if settings.ports[arrival].protocol != TALKING:
        raise Refusal(10)
    address, record = read_sentence(line)
    if address not in COMMANDS:
        raise Refusal(9)
    change, reply_address = COMMANDS[address]
    after, reply = change(settings, arrival, record)
    return write_sentence(reply_address, reply, room), after


def mask_counts(settings):
    """Gives how many satellites the GPS and the GLONASS mask allow; refuses wrong settings with 5 at line 0."""
    if not settings.in_range():
        raise Refusal(5, 0, 0)
    return bin(settings.gps).count("1"), bin(settings.glonass).count("1")
