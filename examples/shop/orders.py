"""orders.py HOST:PORT DATABASE: the orders, which are written down when their transaction commits."""
import sqlite3
import sys
import xml.etree.ElementTree as ET

import wsat


class Orders:
    schema = """
    CREATE TABLE IF NOT EXISTS orders (account TEXT, item TEXT, count INTEGER);
    CREATE TABLE IF NOT EXISTS pending (tx TEXT REFERENCES wsat ON DELETE CASCADE, account TEXT, item TEXT, count INTEGER);
    """

    def work(self, db: sqlite3.Connection, tx: str, request: ET.Element) -> None:
        row = (tx, request.get("account"), request.get("item"), int(request.get("count", "1")))
        db.execute("INSERT INTO pending VALUES (?, ?, ?, ?)", row)

    def prepare(self, db: sqlite3.Connection, tx: str) -> bool:
        """An order can always be written down."""
        return True

    def commit(self, db: sqlite3.Connection, tx: str) -> None:
        db.execute("INSERT INTO orders SELECT account, item, count FROM pending WHERE tx = ?", (tx,))

    def rollback(self, db: sqlite3.Connection, tx: str) -> None:
        """Nothing was done that is to be taken back: the pending rows go with the transaction."""


if __name__ == "__main__":
    wsat.Participant(Orders(), *sys.argv[1:]).run()
