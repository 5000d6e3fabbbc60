"""The statements that an office sends to its database for an issue, for C SQLite; and what is in a database's log."""
import pathlib

# Bytes of a log before its first frame, and of a frame before its page (sqlite.org/fileformat2.html, section 4).
LOG_HEADER, FRAME_HEADER = 32, 24


def issue_by_sqlite(connection, serial, keyid, key, message, body, reply, caller="ana"):
    """Has SQLite do them, in a transaction: `key` is that of the request."""
    one, department = connection.execute, keyid.partition("/")[0]
    one("BEGIN")
    one("SELECT caller, key, message, reply FROM request WHERE caller = ? AND key = ?", (caller, key)).fetchall()
    one("SELECT * FROM office ORDER BY id").fetchall()
    one("SELECT * FROM department WHERE name = ?", (department,)).fetchall()
    one("SELECT keyid FROM revoked_keyid WHERE keyid = ?", (keyid,)).fetchall()
    one("SELECT * FROM ca ORDER BY number").fetchall()
    one("INSERT INTO cert VALUES (?, ?, ?, ?, NULL)", (serial, department, keyid, body))
    one("UPDATE office SET next = ?, version = ?, date = ? WHERE id = 1", (serial + 1, 0, 0))
    one("INSERT INTO request VALUES (?, ?, ?, ?)", (caller, key, message, reply))
    one("COMMIT")


def logged(db):
    """The pages of each transaction in a database's log, by their numbers."""
    log = pathlib.Path(f"{db}-wal").read_bytes()
    size, salts, found, pages = int.from_bytes(log[8:12], "big"), log[16:24], [], []
    for at in range(LOG_HEADER, len(log) - FRAME_HEADER, FRAME_HEADER + size):
        if log[at + 8:at + 16] != salts:
            break
        pages.append(int.from_bytes(log[at:at + 4], "big"))
        if any(log[at + 4:at + 8]):
            found.append(pages)
            pages = []
    return found
