"""What a run may answer whose call was refused."""
import re

NO_MEMORY = (6, b"sdfw: 1 OutOfMemory\n")
NO_MEMORY_IN_JSON = (6, b'{"fault":1,"name":"OutOfMemory"}\n')
NO_WORKER = (6, b"sdfw: 32 NoWorker\n")
NO_READ = (5, b"sdfw: 47 Read\n")
NO_WRITE = (5, b"sdfw: 48 Write\n")
NO_WRITE_IN_JSON = (5, b'{"fault":48,"name":"Write"}\n')


def timed(ended):
    """An answer without the numbers that a clock gave."""
    printed, output = (text and re.sub(rb"[0-9.]+", b"N", text) for text in (ended.printed, ended.output))
    return ended.status, printed, ended.told, output


def is_text(output, whole, period):
    """Nothing, or the header, or it and the frames of whole periods, which have so many bytes each."""
    return is_front(output, whole) and (not output or (len(output) >= 44 and (len(output) - 44) % period == 0))


def is_front(output, whole):
    return not output or (whole is not None and whole.startswith(output))


def ample_or(fault, period=None, text=True, less=False):
    """The ample answer, or the fault with nothing printed and a text in OUT, or at least a front of one. With `less`
    the ample fault may lack what more is told of it, the lines that begin with two blanks."""

    def allowed(ended, ample, at):
        if ended.answer() == ample.answer():
            return True
        if less and ended.fault() == (ample.status, ample.told.split(b"\n  ", 1)[0] + b"\n"):
            return not ended.printed and ended.output == ample.output
        written = is_text(ended.output, ample.output, period or 2) if text else is_front(ended.output, ample.output)
        return ended.refused() == 1 and ended.fault() == fault and not ended.printed and written

    return allowed


def any_of(*judges):
    """What one of these allows."""
    return lambda ended, ample, at: any(allowed(ended, ample, at) for allowed in judges)


def only(fault, period=None, text=True):
    """The fault alone: a refused call is never passed over."""
    allowed = ample_or(fault, period, text)
    return lambda ended, ample, at: ended.answer() != ample.answer() and allowed(ended, ample, at)


def behind(fault, ample_too):
    """The fault behind a front of what is told, and of what is printed."""

    def allowed(ended, ample, at):
        if ended.answer() == ample.answer():
            return ample_too
        status, line = ended.fault()
        front = line[: -len(fault[1])]
        told = (status, line) == (fault[0], front + fault[1]) and ample.told.startswith(front)
        return told and ample.printed.startswith(ended.printed)

    return allowed


def printed_or(fault, ample_too):
    """The fault behind a front of what is printed."""

    def allowed(ended, ample, at):
        if ended.answer() == ample.answer():
            return ample_too
        return ended.fault() == fault and ample.printed.startswith(ended.printed)

    return allowed
