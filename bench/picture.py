"""Draws the ratios of some workloads as an SVG, to be read on light ground and on dark."""
from html import escape
from string import Template

# The bars are 18 apart and begin at 400, and a ratio of 1 is 460 long.
PICTURE = Template("""<svg xmlns="http://www.w3.org/2000/svg" viewBox="0 0 880 $height" width="880" height="$height" role="img" aria-labelledby="title">
<title id="title">Instructions over those of the Rust crate sql-builder 3.1.1, whose bars would end at the line: less is better</title>
<style>
text { font: 11px -apple-system, "Segoe UI", "Noto Sans", Helvetica, Arial, sans-serif; fill: #1f2328 }
.heading { font-size: 14px; font-weight: 600 }
.name, .number { text-anchor: end }
.bar { fill: #4291e0 }
.crate { fill: #bc4c00 }
.limit { fill: #1f2328 }
@media (prefers-color-scheme: dark) { text, .limit { fill: #e6edf3 } .crate { fill: #f0883e } }
</style>
<text class="heading" x="12" y="24">Instructions over those of the Rust crate sql-builder 3.1.1, whose bars would end at the line: less is better</text>
<text class="legend" x="12" y="44">the mark: a program that only finds the lines and TABs and copies the arguments</text>
$rows<rect class="crate" x="860" y="62" width="1.5" height="$bars"/>
</svg>
""")


def row(top, name, ours, limit):
    """A workload's name, its ratio, a bar of that length, and the limit's ratio as a mark, or None."""
    name = f'<text class="name" x="352" y="{top + 13}">{escape(name.replace("`", ""), quote=False)}</text>'
    number = f'<text class="number" x="390" y="{top + 13}">{ours:.2f}</text>'
    bar = f'<rect class="bar" x="400" y="{top + 5}" width="{460 * min(ours, 1):g}" height="9"/>'
    mark = "" if limit is None else f'<rect class="limit" x="{399 + 460 * limit:g}" y="{top + 3}" width="2" height="13"/>'
    return f"{name}{number}{bar}{mark}\n"


def svg(workloads):
    """The picture of workloads, each with its name, our ratio, and the limit's."""
    rows, bars = "".join(row(62 + 18 * number, *it) for number, it in enumerate(workloads)), 18 * len(workloads)
    return PICTURE.substitute(height=bars + 74, bars=bars, rows=rows)
