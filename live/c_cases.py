"""What the example in Python prints of a query: c_cases.py PORT TEXT QUERY. The query `types` stands for a check of tuples."""

import decimal
import sys

import hothummei


def show(value):
    if value is None:
        return "NULL"
    if value is True or value is False:
        return "t" if value else "f"
    if isinstance(value, bytes):
        return "\\x" + value.hex()
    return str(value)


def types(connection):
    """Tuples by the types of columns, of a simple query and of one with parameters."""
    rows = connection.query("SELECT 1::int2, 2::int4, 3::int8, true, 1.5::float8, 1.50::numeric, '\\x00ff'::bytea, 'a', NULL::int")
    assert rows == [(1, 2, 3, True, 1.5, decimal.Decimal("1.50"), b"\x00\xff", "a", None)], rows
    rows = connection.query("SELECT $1::int + 1, $2::text, $3::bool", 41, "x", None)
    assert rows == [(42, "x", None)], rows
    assert connection.query("CREATE TEMP TABLE t (n int)") == []
    print("the same")


def main():
    port, text, sql = sys.argv[1:]
    connection = hothummei.connect(text, "127.0.0.1", int(port))
    if sql == "types":
        types(connection)
        return
    for row in connection.query(sql):
        sys.stdout.write("|".join(show(value) for value in row) + "\n")


try:
    main()
except hothummei.Error as error:
    print(error, file=sys.stderr)
    sys.exit(1)
