"""How a call of a command ends: its status, output, error line and the checkpoint that it saves."""
import sys
from collections import namedtuple
from pathlib import Path

from input_judge import Open, Refused
from reference.request_words import is_utf_8

# What a call leaves: its status, the output, the error output, and the bytes that were saved, if any.
Ended = namedtuple("Ended", "status text line saved")
NOT_TOLD = 13


def ending_of(order_of, answer, words):
    """How a call with these words ends: `order_of` reads them, and `answer` gives the text and the bytes to save of an order, which
    names the file in its field `save`."""
    order = order_of(words) if all(map(is_utf_8, words)) else None
    if order is None:
        return Ended(2, "", "glass: the command line is not understood\n", None)
    try:
        text, saved = answer(order)
    except Refused as refusal:
        return Ended(refusal.status, "", f"glass: {refusal.line}\n", None)
    except Open:
        return Ended(NOT_TOLD, "", "the answer isn't told here\n", None)
    if saved is not None:
        try:
            Path(order.save.decode()).write_bytes(saved)
        except OSError:
            return Ended(10, text, "glass: placing the checkpoint failed\n", None)
    return Ended(0, text, "", saved)


def tell(done):
    sys.stdout.write(done.text)
    sys.stderr.write(done.line)
    return done.status
