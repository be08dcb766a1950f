"""Pictures of what was measured, drawn by gnuplot as SVG."""
import subprocess

HEAD = """
set terminal svg size 760,420 background "white" font "sans-serif,12"
set grid ytics lc rgb "#dddddd"
set key left top Left reverse
set linetype 1 lc rgb "#b04a2f" lw 2
set linetype 2 lc rgb "#d9a441" lw 2
set linetype 3 lc rgb "#555555" lw 2
set linetype 4 lc rgb "#1f5fa8" lw 2
set linetype 5 lc rgb "#6aa84f" lw 2
set linetype 6 lc rgb "#9fc5e8" lw 2
set linetype 7 lc rgb "#674ea7" lw 2
set datafile missing "None"
"""


def drawn(path, settings, rows, plots):
    """Draws the columns of `rows` behind the first to the file at `path`: `plots` has the words of
    each column's plot, and `settings` the lines before them."""
    table = "\n".join(" ".join(f'"{it}"' if isinstance(it, str) else str(it) for it in row)
                      for row in rows)
    script = (f"{HEAD}\nset output '{path}'\n{settings}\n$rows << END\n{table}\nEND\nplot "
              + ", ".join(f"$rows {words}" for words in plots) + "\n")
    subprocess.run(["gnuplot"], input=script, text=True, check=True)


def write_table(path, columns, rows):
    """Writes rows of numbers under the names of their columns."""
    with open(path, "w") as file:
        file.writelines(" ".join(map(str, row)) + "\n" for row in (columns, *rows))


def read_table(path):
    """The rows of such a file, each by the names of its columns."""
    with open(path) as file:
        columns, *rows = (line.split() for line in file)
    return [dict(zip(columns, map(int, row))) for row in rows]


def lines(path, names, rows, across, up):
    """A line for each column over the first one, with logarithmic axes."""
    settings = f"set logscale xy\nset xlabel '{across}'\nset ylabel '{up}'"
    drawn(path, settings, rows,
          [f"using 1:{k + 2} with lines lt {k + 1} title '{name}'" for k, name in enumerate(names)])


def steps(path, names, rows, across, up):
    """A line for each column, of the line type that stands beside its name, over the first one's
    numbers at equal distances, so that 0 is there too; the heights are logarithmic."""
    settings = (f"set logscale y\nset xlabel '{across}'\nset ylabel '{up}'\n"
                "set xtics rotate by -30\nset rmargin 7")
    drawn(path, settings, [(f"{row[0]:,}", *row[1:]) for row in rows],
          [f"using {k + 2}:xtic(1) with linespoints lt {it} pt 7 ps 0.5 title '{name}'"
           for k, (name, it) in enumerate(names)])


def bars(path, names, rows, up):
    """A group of bars for each row, whose first column names it; the heights are logarithmic. There
    is no bar where a row has None."""
    settings = (f"set logscale y\nset ylabel '{up}'\nset style data histograms\n"
                "set style histogram clustered gap 1\nset style fill solid noborder\n"
                "set xtics rotate by -30 scale 0\nset rmargin 10\nset key outside top center\n"
                "set key horizontal maxcols 4")
    drawn(path, settings, rows,
          [f"using {k + 2}:xtic(1) lt {k + 1} title '{name}'" for k, name in enumerate(names)])
