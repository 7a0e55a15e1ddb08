"""Runs the program on many copies of a frame, from a file into a file, and measures it."""
import resource, subprocess, tempfile, time


def processor_seconds():
    used = resource.getrusage(resource.RUSAGE_CHILDREN)
    return used.ru_utime + used.ru_stime


def are_whole(replies, reply, count):
    """There is this reply to each frame, and nothing behind them."""
    replies.seek(0)
    return all(replies.read(len(reply)) == reply for _ in range(count)) and not replies.read(1)


def timed(program, frame, reply, count):
    """Seconds, processor seconds, and whether each of so many thousand frames got the reply."""
    with tempfile.TemporaryFile() as requests, tempfile.TemporaryFile() as replies:
        for _ in range(count // 1000):
            requests.write(frame * 1000)
        requests.seek(0)
        before, start = processor_seconds(), time.monotonic()
        subprocess.run([program], stdin=requests, stdout=replies, check=True)
        return time.monotonic() - start, processor_seconds() - before, are_whole(replies, reply, count)
