"""Tables as text, as CSV, and as a plot of lines in SVG."""
import csv
import io

COLOURS = "#1f77b4 #d62728 #2ca02c #9467bd #ff7f0e #8c564b #17becf #7f7f7f".split()


def as_text(heads, rows):
    """Columns set right under their heads."""
    shown = [heads, *([str(it) for it in row] for row in rows)]
    widths = [max(len(row[k]) for row in shown) for k in range(len(heads))]
    return "\n".join("  ".join(it.rjust(width) for it, width in zip(row, widths)).rstrip() for row in shown)


def as_csv(heads, rows):
    out = io.StringIO()
    csv.writer(out, lineterminator="\n").writerows([heads, *rows])
    return out.getvalue()


def as_plot(title, across, up, lines):
    """An SVG of lines, each a name with points (x, y); both axes begin at 0 and have round numbers."""
    wide, high, left, top = 640, 400, 80, 40
    points = [point for _, line in lines for point in line]
    right, across_step = axis(max((x for x, _ in points), default=1))
    most, up_step = axis(max((y for _, y in points), default=1))
    place = lambda x, y: (left + x * (wide - left - 140) / right, high - 50 - y * (high - top - 50) / most)
    out = [f'<svg xmlns="http://www.w3.org/2000/svg" viewBox="0 0 {wide} {high}" font-family="sans-serif" font-size="12">',
           f'<rect width="{wide}" height="{high}" fill="white"/>',
           f'<text x="{left}" y="20" font-size="14">{escaped(title)}</text>']
    for k in range(round(most / up_step) + 1):
        side, py = place(0, k * up_step)
        out.append(f'<line x1="{side:.1f}" y1="{py:.1f}" x2="{wide - 140}" y2="{py:.1f}" stroke="#ddd"/>')
        out.append(f'<text x="{side - 6:.1f}" y="{py + 4:.1f}" text-anchor="end">{short(k * up_step)}</text>')
    for k in range(round(right / across_step) + 1):
        px, bottom = place(k * across_step, 0)
        out.append(f'<text x="{px:.1f}" y="{bottom + 18:.1f}" text-anchor="middle">{short(k * across_step)}</text>')
    out.append(f'<text x="{(left + wide - 140) / 2}" y="{high - 8}" text-anchor="middle">{escaped(across)}</text>')
    out.append(f'<text x="16" y="{high / 2}" text-anchor="middle" transform="rotate(-90 16 {high / 2})">{escaped(up)}</text>')
    for k, (name, line) in enumerate(lines):
        colour = COLOURS[k % len(COLOURS)]
        path = " ".join(f"{x:.1f},{y:.1f}" for x, y in (place(*point) for point in line))
        out.append(f'<polyline points="{path}" fill="none" stroke="{colour}" stroke-width="2"/>')
        for point, (x, y) in zip(line, (place(*point) for point in line)):
            out.append(f'<circle cx="{x:.1f}" cy="{y:.1f}" r="3" fill="{colour}">'
                       f'<title>{escaped(name)}: {point[0]}, {point[1]}</title></circle>')
        out.append(f'<text x="{wide - 128}" y="{top + 16 * k}" fill="{colour}">{escaped(name)}</text>')
    return "\n".join([*out, "</svg>", ""])


def axis(most):
    """Where an axis ends that shows numbers from 0 to `most`, and the step of its numbers, of which there are about five."""
    most = max(most, 1)
    step = next(it * 10 ** power for power in range(19) for it in (1, 2, 5) if it * 10 ** power * 5 >= most)
    return -(-most // step) * step, step


def short(number):
    for least, sign in ((1e9, "G"), (1e6, "M"), (1e4, "k")):
        if number >= least:
            return f"{number / {'G': 1e9, 'M': 1e6, 'k': 1e3}[sign]:.4g}{sign}"
    return f"{number:.4g}"


def escaped(text):
    return str(text).replace("&", "&amp;").replace("<", "&lt;").replace(">", "&gt;")
