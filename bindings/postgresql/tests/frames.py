"""Frames of windows that move: the time of signed counts grows with the rows, and not with the rows of a frame."""
import server

# Each frame has half of all rows. They are in memory: PostgreSQL reads a frame on disk again to find the row that leaves it.
QUERY = """SELECT count(s) FROM (SELECT signed_count_min_agg_sized(i % 1000, i, 3, 64)
    OVER (ORDER BY i ROWS {half} PRECEDING) AS s FROM generate_series(1::bigint, 2 * {half}) AS i) AS frames"""
ROUNDS = 3


def linear(tests):
    """Eight times as many rows, in frames that are eight times as long, take about eight times as long. Each frame read again would
    make it 64 times."""
    with tests.main.session(work_mem="256MB") as session, session.cursor() as cursor:
        cursor.execute("SELECT pg_backend_pid(), (SELECT count(s) FROM (SELECT signed_count_min_agg_sized(1, 3, 64) AS s) AS t)")
        process = cursor.fetchone()[0]
        times, memory = [], server.memory(process, "VmHWM")
        for half in [20000, 160000]:
            least = float("inf")
            for _ in range(ROUNDS):
                before = server.processor_time(process)
                cursor.execute(QUERY.format(half=half))
                tests.check(f"frames of {half} rows", cursor.fetchone() == (2 * half,))
                least = min(least, server.processor_time(process) - before)
            times.append(least)
        tests.check("the time of frames that move is linear", times[1] < 24 * times[0], times)
        memory = server.memory(process, "VmHWM") - memory
        tests.check("the memory of frames that move", memory < 128 * 2**20, memory)
