"""The shelf of a gateway: the counted calls that the writer of its files makes for items, one after the other. An item
goes to the streams in their order, and each file is cut item by item."""

import files

STREAMS = 16
BEGIN, HEADER, CDR, SYNC = "begin", "header", "cdr", "sync"


def cut_before(run, item, settings):
    """Why the open run is closed before an item, or None."""
    if not run:
        return None
    if item.mark == "Close":
        return files.MANUAL
    if item.mark == "Tick":
        return files.OPEN_TIME if item.moment - run[0].moment >= settings.open_time else None
    return None if files.is_one_kind(item.kind, run[-1].kind, settings) else files.CHANGE


def cut_after(run, settings):
    """Why the open run is closed behind its last record, or None."""
    if files.length_of(run, settings) >= settings.size:
        return files.SIZE
    return files.COUNT if len(run) >= settings.count else None


class Stream:
    """A stream of files: the run that is open, and the number of its file."""

    def __init__(self, number, settings, address):
        self.number, self.settings, self.address = number, settings, address
        self.run, self.sequence = [], 1

    def closed(self, reason):
        """The calls that close the open file: the last seals it, by its name and octets."""
        octets = files.file_octets(self.run, self.sequence, reason, self.settings, self.address)
        named = (self.sequence, [HEADER, SYNC, ((self.number, self.sequence), octets)])
        self.run, self.sequence = [], self.sequence + 1
        return named

    def calls(self, item):
        """The calls for an item, each file's with its number."""
        reason = cut_before(self.run, item, self.settings)
        if reason is not None:
            yield self.closed(reason)
        if item.mark is None:
            yield self.sequence, ([] if self.run else [BEGIN, HEADER]) + [CDR, CDR]
            self.run = [*self.run, item]
            reason = cut_after(self.run, self.settings)
            if reason is not None:
                yield self.closed(reason)


def calls(items, sealed, settings, address):
    """The calls for items, each with the place of its item, on a shelf on which each stream has files sealed up to a
    number: none of them gets a call."""
    streams = [Stream(number, settings, address) for number in range(STREAMS)]
    for place, item in enumerate(items):
        for stream in streams:
            if item.mark is None and files.stream_of(item, settings.rules) != stream.number:
                continue
            for sequence, made in stream.calls(item):
                if sequence > sealed[stream.number]:
                    yield from ((place, call) for call in made)


def sealed_up_to(shelf):
    """The greatest number of each stream on a shelf: a dictionary of octets by stream and number."""
    return [max((sequence for stream, sequence in shelf if stream == number), default=0) for number in range(STREAMS)]


def lines(number, shelf):
    """The lines of a report that show the files on the shelf of a gateway."""
    return [f"file {number} {stream:02}-{sequence:010}.cdr {octets.hex().upper()}"
            for (stream, sequence), octets in sorted(shelf.items())]
