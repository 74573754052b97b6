# Draws docs/benchmarks.svg from the tables of docs/BENCHMARKS.md. At the repository's root: gnuplot bench/plot.gnuplot
set encoding utf8
set terminal svg noenhanced size 1380,420 font "sans-serif,12" background "white"
set output "docs/benchmarks.svg"

# The rows of the table under a heading, whose first cell begins with a number; other tables have such cells too. Cells are columns from
# 2 on, since a row begins with a bar.
rows(heading) = "< sed -n '/^## " . heading . "$/,/^## / { /^| [0-9]/p }' docs/BENCHMARKS.md"
sizes = rows("Growth with m by n")
bits = rows("Growth with coefficient size")
set datafile separator "|"
number(column) = real(word(strcol(column), 1))
unit(name) = name eq "ns" ? 1e-9 : name eq "µs" ? 1e-6 : name eq "ms" ? 1e-3 : 1
seconds(column) = number(column) * unit(word(strcol(column), 2))
sides = "verified independent"

set logscale
set micro
set format y "%.0s %cs"
set tics scale 0 textcolor "black"
set grid linetype -1 linecolor "#dddddd"
set border back linecolor "#dddddd"
set key top left Left reverse
set style data linespoints
set linetype 1 linecolor "#1f5fa8" linewidth 2 pointtype 7 pointsize 0.6
set linetype 2 linecolor "#c2571a" linewidth 2 pointtype 7 pointsize 0.6
set multiplot layout 1,3 title "Time per call of the verified library and of the independent implementation: \
medians over random banks, both axes logarithmic"

set xlabel "m · n (m = n)"
set xtics (1, 4, 9, 16, 25, 36, 64)
set xrange [1:64]
set title "compile, 16-bit coefficients"
plot for [side=1:2] sizes using (number(2)**2):(seconds(5 + side)) title word(sides, side)
set title "read, 16-bit coefficients"
plot for [side=1:2] sizes using (number(2)**2):(seconds(8 + side)) title word(sides, side)

set xlabel "bits of a coefficient"
set xtics (4, 8, 12, 16)
set xrange [4:16]
set title "compile, 8 by 8"
plot for [side=1:2] bits using (number(2)):(seconds(5 + side)) title word(sides, side)
