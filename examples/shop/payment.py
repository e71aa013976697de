"""payment.py HOST:PORT DATABASE [hangs]: the accounts, which veto where one hasn't enough.

With `hangs` the service does nothing more once it has said Prepared, so that it can be killed there.
"""
import signal
import sqlite3
import sys
import xml.etree.ElementTree as ET

import wsat


class Payment:
    schema = """
    CREATE TABLE IF NOT EXISTS account (name TEXT PRIMARY KEY, balance INTEGER NOT NULL CHECK (balance >= 0));
    CREATE TABLE IF NOT EXISTS charge (
        tx TEXT REFERENCES wsat ON DELETE CASCADE, account TEXT REFERENCES account, amount INTEGER CHECK (amount >= 0)
    );
    INSERT OR IGNORE INTO account VALUES ('alice', 100);
    """

    def work(self, db: sqlite3.Connection, tx: str, request: ET.Element) -> None:
        amount = int(request.get("count", "1")) * int(request.get("price", "0"))
        db.execute("INSERT INTO charge VALUES (?, ?, ?)", (tx, request.get("account"), amount))

    def prepare(self, db: sqlite3.Connection, tx: str) -> bool:
        """Takes the amount; the CHECK of the table refuses what isn't there. Of what is free there is nothing to commit."""
        return self.move(db, tx, -1)

    def commit(self, db: sqlite3.Connection, tx: str) -> None:
        """What was taken stays taken."""

    def rollback(self, db: sqlite3.Connection, tx: str) -> None:
        self.move(db, tx, 1)

    def move(self, db: sqlite3.Connection, tx: str, sign: int) -> bool:
        charges = db.execute("SELECT account, amount FROM charge WHERE tx = ? AND amount > 0", (tx,)).fetchall()
        for account, amount in charges:
            db.execute("UPDATE account SET balance = balance + ? WHERE name = ?", (sign * amount, account))
        return bool(charges)


class Hanging(wsat.Participant):
    def say(self, name: str, to: ET.Element, tx: str) -> None:
        super().say(name, to, tx)
        if name == "Prepared":
            signal.pause()


if __name__ == "__main__":
    participant = Hanging if sys.argv[3:] == ["hangs"] else wsat.Participant
    participant(Payment(), *sys.argv[1:3]).run()
