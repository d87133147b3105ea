"""A price list with an undo: each change keeps the list before it."""

from boltcomfrey import NumberMap


class Prices:
    def __init__(self) -> None:
        self.now = NumberMap()
        self.before: list[NumberMap] = []

    def set(self, name: bytes, price: int) -> None:
        """Sets a price. Where that raises, the list and its history are as before."""
        before = self.now.copy()
        self.now[name] = price
        self.before.append(before)

    def undo(self) -> None:
        """Takes the last step back."""
        if self.before:
            self.now = self.before.pop()

    def show_under(self, prefix: bytes) -> None:
        """Shows the prices of names that begin with a prefix."""
        for name, price in self.now.prefix(prefix).items():
            print(f"{name.decode()} is {price}")


prices = Prices()
prices.set(b"tea", 300)
prices.set(b"milk", 100)
prices.show_under(b"")
prices.undo()
prices.show_under(b"t")
prices.undo()
prices.show_under(b"t")
