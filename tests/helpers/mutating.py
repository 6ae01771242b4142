"""Small changes of files and of streams, by lines and by bytes: cut, doubled, swapped and joined, with huge numbers, without line feeds, with CR,
NUL and bytes beyond ASCII."""

NUMBERS = [b"0", b"1", b"007", b"-1", b"+1", b"1.0", b"1e3", b"0x1", b"65536", b"65537", b"16777216", b"16777217", b"33554432",
           b"33554433", b"134217728", b"134217729", b"4294967295", b"4294967297", b"576460752303423488", b"576460752303423489",
           b"1152921504606846976", b"1152921504606846977", b"18446744073709551615", b"18446744073709551616",
           b"18446744073709551617", b"340282366920938463463374607431768211457", b"9" * 1000, b"0" * 1000 + b"2"]

BYTES = [b"\0", b"\r", b"\n", b"\t", b" ", b"\x0b", b"\x0c", b"\x1c", b"\x85", b"\xa0", b"\xff", b"\xc3\xa9", b"\xef\xbb\xbf",
         b"\xd9\xa1", b"\xe2\x80\xa8", b"c", b"p", b"a", b"q", b"s", b"o", b"l", b"P", b"-", b"+", b".", b"0", b"1", b"9", b":", b"/"]


def place_in(draw, items):
    return draw.randrange(len(items))


def with_lines(change):
    """A mutation of the bytes, from one of the list of lines."""
    def mutated(draw, data):
        lines = data.split(b"\n")
        change(draw, lines)
        return b"\n".join(lines)
    return mutated


def double_line(draw, lines):
    lines.insert(place_in(draw, lines), draw.choice(lines))


def drop_line(draw, lines):
    lines.pop(place_in(draw, lines))


def swap_lines(draw, lines):
    one, other = place_in(draw, lines), place_in(draw, lines)
    lines[one], lines[other] = lines[other], lines[one]


def change_word(draw, lines):
    place = place_in(draw, lines)
    words = lines[place].split(b" ")
    words[place_in(draw, words)] = draw.choice(NUMBERS + BYTES)
    lines[place] = b" ".join(words)


def change_number(draw, lines):
    place = place_in(draw, lines)
    words = lines[place].split(b" ")
    numbers = [at for at, word in enumerate(words) if word.isdigit()]
    if numbers:
        at = draw.choice(numbers)
        words[at] = draw.choice([*NUMBERS, b"%d" % (int(words[at][:20]) + draw.choice([-1, 1]))])
    lines[place] = b" ".join(words)


def add_word(draw, lines):
    place = place_in(draw, lines)
    words = lines[place].split(b" ")
    words.insert(draw.randint(0, len(words)), draw.choice(NUMBERS + BYTES))
    lines[place] = b" ".join(words)


def drop_word(draw, lines):
    place = place_in(draw, lines)
    words = lines[place].split(b" ")
    words.pop(place_in(draw, words))
    lines[place] = b" ".join(words)


def cut(draw, data):
    return data[:draw.randint(0, len(data))]


def change_byte(draw, data):
    place = draw.randint(0, len(data))
    return data[:place] + draw.choice(BYTES) + data[place + 1:]


def add_byte(draw, data):
    place = draw.randint(0, len(data))
    return data[:place] + draw.choice(BYTES) + data[place:]


def swap_bytes(draw, data):
    place = draw.randint(0, len(data))
    return data[:place] + data[place + 1:place + 2] + data[place:place + 1] + data[place + 2:]


def double(draw, data):
    return data + data


def join_lines(draw, data):
    return data.replace(b"\n", draw.choice([b"", b" ", b"\r", b"\x0b", b"\0"]))


def end_lines(draw, data):
    return data.replace(b"\n", draw.choice([b"\r\n", b"\n\n", b"\n\r", b" \n\t"]))


MUTATIONS = [
    *map(with_lines, [double_line, drop_line, swap_lines, add_word, drop_word, change_word] + 6 * [change_number]),
    cut, change_byte, add_byte, swap_bytes, double, join_lines, end_lines,
]
