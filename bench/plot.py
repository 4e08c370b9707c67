"""A plot of times against lengths, both axes in powers of ten, as an SVG file."""
import math

WIDTH, HEIGHT = 860, 520
LEFT, RIGHT, TOP, BOTTOM = 80, 250, 50, 60
COLOURS = ["#c0392b", "#2c3e50", "#2980b9", "#16a085", "#8e44ad", "#b9770e", "#7f8c8d", "#d35400"]


def ticks(low, high):
    return range(math.floor(low), math.ceil(high) + 1)


def shown(nanoseconds):
    for unit, size in (("ms", 1e6), ("µs", 1e3)):
        if nanoseconds >= size:
            return f"{nanoseconds / size:g} {unit}"
    return f"{nanoseconds:g} ns"


def spread(places, gap):
    """The places, moved apart to at least the gap."""
    order = sorted(range(len(places)), key=lambda i: places[i])
    out = list(places)
    for before, after in zip(order, order[1:]):
        out[after] = max(out[after], out[before] + gap)
    return out


def write_plot(path, series):
    """series: for each name, its points (length, nanoseconds)."""
    points = [point for line in series.values() for point in line]
    x0, x1 = 1, math.log10(max(n for n, _ in points) * 1.1)
    y0, y1 = math.floor(math.log10(min(t for _, t in points))), math.ceil(math.log10(max(t for _, t in points)))

    def x(n):
        return LEFT + (math.log10(n) - x0) / (x1 - x0) * (WIDTH - LEFT - RIGHT)

    def y(t):
        return HEIGHT - BOTTOM - (math.log10(t) - y0) / (y1 - y0) * (HEIGHT - TOP - BOTTOM)

    out = [
        f'<svg xmlns="http://www.w3.org/2000/svg" viewBox="0 0 {WIDTH} {HEIGHT}" font-family="sans-serif" font-size="13">',
        f'<rect width="{WIDTH}" height="{HEIGHT}" fill="white"/>',
        f'<text x="{LEFT}" y="28" font-size="16">Time of one seal against the length of the text, keys of 16 bytes</text>',
    ]
    for k in ticks(y0, y1):
        out.append(f'<line x1="{LEFT}" x2="{WIDTH - RIGHT}" y1="{y(10**k):.1f}" y2="{y(10**k):.1f}" stroke="#dddddd"/>')
        out.append(f'<text x="{LEFT - 8}" y="{y(10**k) + 4:.1f}" text-anchor="end">{shown(10**k)}</text>')
    for n, _ in next(iter(series.values())):
        out.append(f'<line x1="{x(n):.1f}" x2="{x(n):.1f}" y1="{TOP}" y2="{HEIGHT - BOTTOM}" stroke="#dddddd"/>')
        out.append(f'<text x="{x(n):.1f}" y="{HEIGHT - BOTTOM + 20}" text-anchor="middle">{n:,}</text>')
    out.append(f'<text x="{(LEFT + WIDTH - RIGHT) / 2:.0f}" y="{HEIGHT - 14}" text-anchor="middle">bytes of text</text>')
    labels = spread([y(line[-1][1]) for line in series.values()], 16)
    for (name, line), colour, place in zip(series.items(), COLOURS, labels):
        path_words = " ".join(f"{x(n):.1f},{y(t):.1f}" for n, t in line)
        out.append(f'<polyline points="{path_words}" fill="none" stroke="{colour}" stroke-width="2"/>')
        out += [f'<circle cx="{x(n):.1f}" cy="{y(t):.1f}" r="3" fill="{colour}"/>' for n, t in line]
        out.append(f'<line x1="{x(line[-1][0]) + 5:.1f}" y1="{y(line[-1][1]):.1f}" x2="{WIDTH - RIGHT + 22}" y2="{place:.1f}" stroke="{colour}" stroke-width="0.6"/>')
        out.append(f'<text x="{WIDTH - RIGHT + 26}" y="{place + 4:.1f}" fill="{colour}">{name}</text>')
    out.append("</svg>")
    with open(path, "w", encoding="utf-8") as file:
        file.write("\n".join(out) + "\n")
