"""Traders buy and sell in three towns, day by day, where it pays most. Observers tell what each does.

    make library && PYTHONPATH=tools python3 c/examples/market.py out/libflecsq.so
"""
import sys

from flecsq import LIBRARY, Refused, Session
from flecsq_pipe import answer_of, parse

WORLD = """\
component Price coins:u16
component Purse coins:u16
component Holds sacks:u8
entity In
add In Exclusive
entity Road
add Road Symmetric
entity Salt
entity Hill
set Hill (Price,Salt) 3
entity Ford
set Ford (Price,Salt) 5
entity Port
set Port (Price,Salt) 9
add Hill (Road,Ford)
add Ford (Road,Port)
entity Ida
set Ida Purse 10
add Ida (In,Port)
entity Jon
set Jon Purse 7
add Jon (In,Ford)
on add came (In,*)
on set counts (Holds,*)
"""


class Market(Session):
    def ask(self, line):
        """What a line prints, as data."""
        return answer_of([parse(it) for it in self.line(line).splitlines()])

    def rows(self, text):
        return self.ask(f"query {text}").rows

    def tell(self, *lines):
        for line in lines:
            for event in self.ask(line).events:
                what = {"came": f"goes to {getattr(event.id, 'target', '')}", "counts": f"has {event.values and event.values[0]} sacks"}[event.watch]
                print(f"  {event.entity} {what}")

    def trade(self, trader):
        """All or nothing: a trader buys where salt is cheapest, sells where it is dearest, and else goes on towards that."""
        (here,) = self.rows(f"Purse, Price($town,Salt), (In,$town), ?(Holds,Salt), $this == {trader}")
        town, (purse, price, _, holds) = here.variables["$town"], here.fields
        (coins,), (price,), sacks = purse.values, price.values, holds.values[0] if holds else 0
        others = {it.variables["$this"]: it.fields[1].values[0] for it in self.rows(f"(Road,{town}), (Price,Salt)")}
        best = max(others, key=others.get) if sacks else min(others, key=others.get)
        if (others[best] > price) == bool(sacks) and others[best] != price:
            self.tell(f"add {trader} (In,{best})")
        elif sacks:
            self.tell(f"set {trader} (Holds,Salt) 0", f"set {trader} Purse {coins + sacks * price}")
        else:
            self.tell(f"set {trader} (Holds,Salt) {coins // price}", f"set {trader} Purse {coins % price}")


def main(library=LIBRARY):
    with Market(library) as market:
        market.tell(*WORLD.splitlines())
        for day in range(1, 9):
            print(f"day {day}")
            for trader in ("Ida", "Jon"):
                market.trade(trader)
        purses = {it.variables["$this"]: it.fields[0].values[0] for it in market.rows("Purse")}
        print(", ".join(f"{name} has {coins} coins" for name, coins in purses.items()))
        try:
            market.tell("set Ida Purse 70000")
        except Refused as refused:
            print(f"line {refused.number} is refused: {refused.reason}")
            return 0 if purses["Ida"] > 20 else 1
    return 1


if __name__ == "__main__":
    sys.exit(main(*sys.argv[1:]))
