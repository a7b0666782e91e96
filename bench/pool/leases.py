"""leases.py TEXT COUNT - leases of one session by psycopg_pool, in each a query, and DISCARD ALL as it is given back: how
many nanoseconds each took."""

import sys
import time

import psycopg_pool


def reset(connection):
    connection.execute("DISCARD ALL")


text, count = sys.argv[1], int(sys.argv[2])
options = {"autocommit": True, "prepare_threshold": None}
with psycopg_pool.ConnectionPool(text, min_size=1, max_size=1, kwargs=options, reset=reset) as pool:
    pool.wait()
    start = time.perf_counter_ns()
    for _ in range(count):
        with pool.connection() as connection:
            connection.execute("SELECT 1").fetchall()
    print((time.perf_counter_ns() - start) // count)
