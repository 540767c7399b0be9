"""Shows handles, timers and messages of ertime in gdb as what they are, and not as numbers.

    (gdb) source tools/gdb/ertime.py
    (gdb) print world
    $1 = a service, open at 0x5555555592a0
    (gdb) print timer
    $2 = timer of wheel 0, slot 3, generation 8

`make install` puts it where gdb finds it by itself if the library is below /usr. It reads the program's memory alone
and calls nothing of it, so it serves for a core file too. No more can be shown of what lies behind a handle: the
library has no debugging information.
"""
import gdb
import gdb.printing

# The kinds of messages with the fields that each has, and the kinds of requests, as ertime.h numbers them.
MESSAGES = {
    1: ("ERT_TIMEOUT", ("timer", "msg")),
    2: ("ERT_BARE", ("msg",)),
    3: ("ERT_CANCEL_DONE", ("timer", "has_left", "left")),
    4: ("ERT_READ_DONE", ("timer", "has_left", "left")),
    5: ("ERT_CHANGE", ("monitor", "offset")),
}
REQUESTS = {0: "ERT_CANCEL", 1: "ERT_READ"}


class Handle:
    """`ert_world`, `ert_seat`, `ert_hub` and `ert_shard`."""

    what = "a service"

    def __init__(self, value):
        self.value = value

    def to_string(self):
        at, live = int(self.value["at_"]), bool(self.value["live_"])
        if live and at:
            return f"{self.what}, open at {at:#x}"
        if not live and not at:
            return f"{self.what}, closed"
        on = "on" if live else "off"
        return f"no handle: at_ is {at:#x} and live_ is {on}, so it did not begin as ERT_INIT or was written to"


class Seat(Handle):
    what = "a seat"


class Hub(Handle):
    what = "a hub"


class Shard(Handle):
    what = "a shard"


class Timer:
    def __init__(self, value):
        self.value = value

    def to_string(self):
        wheel, slot, generation = (int(self.value[it]) for it in ("wheel", "slot", "generation"))
        return f"timer of wheel {wheel}, slot {slot}, generation {generation}"


class Mail:
    """A message, with the fields of its kind alone."""

    def __init__(self, value):
        self.value = value
        self.name, self.fields = MESSAGES.get(int(value["tag"]), (None, ()))

    def to_string(self):
        return self.name or f"a message of the unknown kind {int(self.value['tag'])}"

    def children(self):
        return ((it, self.value[it]) for it in self.fields)


class Request:
    def __init__(self, value):
        self.value = value

    def to_string(self):
        kind = int(self.value["kind"])
        return REQUESTS.get(kind, f"a request of the unknown kind {kind}")

    def children(self):
        return ((it, self.value[it]) for it in ("timer", "reply_to", "info"))


class Printers(gdb.printing.PrettyPrinter):
    """By the name of the type, since the structs of the header have no tags."""

    KINDS = {
        "ert_world": Handle,
        "ert_seat": Seat,
        "ert_hub": Hub,
        "ert_shard": Shard,
        "ert_timer": Timer,
        "ert_mail": Mail,
        "ert_request": Request,
    }

    def __init__(self):
        super().__init__("ertime", [gdb.printing.SubPrettyPrinter(it) for it in self.KINDS])

    def __call__(self, value):
        name = value.type.unqualified().name
        for it in self.subprinters:
            if it.name == name and it.enabled:
                return self.KINDS[name](value)
        return None


gdb.printing.register_pretty_printer(gdb.current_objfile(), Printers(), replace=True)
