"""PyGObject over this library: functions and callbacks of GLib and Gio, and a signal of a class that is made here."""
import gi
from gi.repository import Gio, GLib, GObject

assert gi.version_info >= (3,)
loop, seen = GLib.MainLoop(), []
GLib.timeout_add(1, lambda number: seen.append(number) or len(seen) < 3 or loop.quit(), 7)
loop.run()
assert seen == [7, 7, 7], seen


class Thing(GObject.Object):
    __gsignals__ = {"told": (GObject.SignalFlags.RUN_LAST, float, (int, str, float, object))}

    def do_told(self, number, text, scale, other):
        return number * scale + len(text)


assert Thing().emit("told", 3, "abc", 2.5, object()) == 10.5
actions = Gio.ListStore.new(Gio.SimpleAction)
for name in "dbca":
    actions.append(Gio.SimpleAction.new(name, None))
actions.sort(lambda one, other, *_: (one.get_name() > other.get_name()) - (one.get_name() < other.get_name()))
assert "".join(actions.get_item(k).get_name() for k in range(4)) == "abcd"
assert GLib.utf8_strlen("äöü", -1) == 3 and GLib.Variant("(sid)", ("x", 3, 2.5)).unpack() == ("x", 3, 2.5)
print(*sorted({line.split()[-1] for line in open("/proc/self/maps") if "libffi.so" in line}), sep="\n")
