"""A sheet of short notes for the page: some of every state, in no order of name, pitch or loudness."""

HEADER = "name,kind,note,seconds,play,accent,structure,brightness,damping"
LEVELS = ["0.05", "0.3", "0.55", "0.8"]


def row(number):
    word = ["pluck", "bell", "bowl"][number % 3]
    kind = ["string", "modal"][number % 2]
    key = 36 + number * 7 % 48
    return f"{word} {number},{kind},{key},0.02,trigger,{LEVELS[number % 4]},0.4,0.5,0.5"


def sheet(notes):
    """So many notes, two of which are refused, and two warned of; the last but one is long enough to be heard."""
    rows = [row(number) for number in range(notes)]
    rows[40] = "too high,string,30000hz,1,trigger,0.5,0.4,0.5,0.5"
    rows[41] = "no such kind,drum,A3,1,trigger,0.5,0.4,0.5,0.5"
    rows[notes - 1] = "ümlaut & last,modal,A3,1,trigger,0.5,0.4,0.5,0.5"
    rows[300] = "empty,modal,A3,0,trigger,0.5,0.4,0.5,0.5"
    rows[310] = "too hot,modal,A3,0.5,sustain,1,0.25,1,0.9"
    rows[notes - 2] = "Änd #1,string,A3,2,trigger,0.5,0.4,0.5,0.5"
    return "\n".join([HEADER, *rows, ""])
