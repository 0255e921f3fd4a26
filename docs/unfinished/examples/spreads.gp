# Draws the axes of a job in channel order, each one's spread with its error above and below it, from the bytes of the program `spreads`. After
# `rt check spreads`, at the repository's root:
#   gnuplot -e "job='examples/field.job'; drawing='target/field.svg'" examples/spreads.gp

set terminal svg size 640,400 background 'white'
set output drawing
set title job noenhanced
set xlabel 'axis'
set ylabel 'spread'
set xtics 1
set offsets 0.5, 0.5, graph 0.05, graph 0.05
set grid ytics
unset key
plot '<target/bin/spreads <'.job binary format='%float64%float64' using ($0 + 1):1:2 with yerrorbars pointtype 7 pointsize 0.6
