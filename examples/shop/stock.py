"""stock.py HOST:PORT DATABASE: the stock, which vetoes where it hasn't enough."""
import sqlite3
import sys
import xml.etree.ElementTree as ET

import wsat


class Stock:
    schema = """
    CREATE TABLE IF NOT EXISTS stock (item TEXT PRIMARY KEY, count INTEGER NOT NULL CHECK (count >= 0));
    CREATE TABLE IF NOT EXISTS wanted (
        tx TEXT REFERENCES wsat ON DELETE CASCADE, item TEXT REFERENCES stock, count INTEGER CHECK (count > 0)
    );
    INSERT OR IGNORE INTO stock VALUES ('book', 5);
    """

    def work(self, db: sqlite3.Connection, tx: str, request: ET.Element) -> None:
        db.execute("INSERT INTO wanted VALUES (?, ?, ?)", (tx, request.get("item"), int(request.get("count", "1"))))

    def prepare(self, db: sqlite3.Connection, tx: str) -> bool:
        """Puts what is wanted aside; the CHECK of the table refuses what isn't there, and so vetoes."""
        self.move(db, tx, -1)
        return True

    def commit(self, db: sqlite3.Connection, tx: str) -> None:
        """What was put aside is gone."""

    def rollback(self, db: sqlite3.Connection, tx: str) -> None:
        self.move(db, tx, 1)

    def move(self, db: sqlite3.Connection, tx: str, sign: int) -> None:
        for item, count in db.execute("SELECT item, count FROM wanted WHERE tx = ?", (tx,)).fetchall():
            db.execute("UPDATE stock SET count = count + ? WHERE item = ?", (sign * count, item))


if __name__ == "__main__":
    wsat.Participant(Stock(), *sys.argv[1:]).run()
