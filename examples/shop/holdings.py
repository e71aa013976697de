"""holdings.py FOLDER: what the databases of the shop hold, on a line, and which of them waits for an outcome."""
import contextlib
import sqlite3
import sys

HELD = {
    "orders": "SELECT 'orders ' || coalesce(sum(count), 0) FROM orders",
    "payment": "SELECT 'money ' || balance FROM account WHERE name = 'alice'",
    "stock": "SELECT 'stock ' || count FROM stock WHERE item = 'book'",
}


def holds(path: str, held: str) -> str:
    with contextlib.closing(sqlite3.connect(f"file:{path}?mode=ro", uri=True)) as db:
        (text,) = db.execute(held).fetchone()
        (doubts,) = db.execute("SELECT count(*) FROM wsat WHERE state = 'PreparedSuccess'").fetchone()
    return f"{text} (in doubt)" if doubts else text


if __name__ == "__main__":
    print(", ".join(holds(f"{sys.argv[1]}/{name}.db", held) for name, held in HELD.items()))
