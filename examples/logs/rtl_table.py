import re, sys

print("processor,operation,address,values,reply,issued,answered")
asked = {}  # by core and id: operation, address, data, time
for line in sys.stdin:
    time, core, what, name, kind, fields = re.match(r"\[ *(\d+)\] (\w+) (REQ|RSP) id=(\w+) ?(WR|RD)?(.*)", line).groups()
    field = dict(it.split("=") for it in fields.split())
    if what == "REQ":
        asked[core, name] = "store" if kind == "WR" else "load", field["addr"], field.get("data", ""), time
    else:
        operation, address, data, issued = asked.pop((core, name))
        print(core, operation, address, data, field.get("data", "ok"), issued, time, sep=",")
for (core, _), (operation, address, data, issued) in asked.items():
    print(core, operation, address, data, "", issued, "", sep=",")
