"""Two replicas of a shopping cart: each does something, they exchange their states, and both answer alike.

    cart.py LIBRARY TYPE DESIGN
"""
import sys

from katara import Library, Replica

library = Library(sys.argv[1])
type_text, design_text = (open(path).read() for path in sys.argv[2:4])
here, there = Replica(library, type_text, design_text, 1), Replica(library, type_text, design_text, 2)
here.do("add", ["milk", 2])
there.do("add", ["milk", 3])
there.do("add", ["eggs", 12])
packet = there.state()
for _ in range(2):  # once more changes nothing
    here.merge(packet)
for thing in "milk", "eggs":
    print(f'count "{thing}" = {here.ask("count", [thing])}')
