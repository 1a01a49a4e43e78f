"""Plan bytes from before a plan had an income, for "old plan files are written anew": the same but for the 4 bits of the income.

Written from documents 01 and 02 alone, not from the engine or its definitions.
"""
from rules import NUMBER_BITS, WIDTHS, Head, fields, head_checks, refusal, row_checks, row_length, write_bytes

OLD_WIDTHS = WIDTHS[:3]  # "n in 7 bits, u in 8, m in 9", then the row
OLD_HEAD_BITS = sum(OLD_WIDTHS)


def old_bits(head):
    """Without the fill bits."""
    return OLD_HEAD_BITS + NUMBER_BITS * row_length(head)


def write_old(head, row):
    """The old bytes of a plan of income 1."""
    bits = "".join(f"{x:0{width}b}" for x, width in zip(head, OLD_WIDTHS)) + "".join(f"{x:0{NUMBER_BITS}b}" for x in row)
    bits += "0" * (-len(bits) % 8)
    return int(bits, 2).to_bytes(len(bits) // 8, "big")


def read_old(data):
    """The head, with the income 1 that it did not say, the row and the fill bits. Only the head is there where the length is not the head's."""
    bits = "".join(f"{byte:08b}" for byte in data)
    head = Head(*fields(bits, OLD_WIDTHS))
    if len(data) != -(-old_bits(head) // 8):
        return head, None, None
    return head, fields(bits[OLD_HEAD_BITS:], [NUMBER_BITS] * row_length(head)), bits[old_bits(head) :]


def old_checks(data):
    yield 1, len(data) < -(-OLD_HEAD_BITS // 8)
    head, row, fill = read_old(data)
    yield from head_checks(head)
    yield 5, row is None
    yield 6, "1" in fill
    yield from row_checks(head, row)


def renewed(data):
    """The refusal's number of old bytes, and the new bytes."""
    number = refusal(old_checks(data))
    return number, b"" if number else write_bytes(*read_old(data)[:2])
