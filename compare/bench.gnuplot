# The time a request takes against the requests of a shift, for the proved library and both peers, and how the proved due step compares:
# gnuplot -e "data='FILE'; plot='FILE.svg'" compare/bench.gnuplot
# Blocks 0 to 2 of the data are shifts in order, falling and shuffled, 3 to 5 the same with settlements, 6 a due step.
set terminal svg size 1400,560 font 'sans-serif,12' background '#ffffff'
set output plot
set datafile missing '?'
side(s) = word('proved Rust C', s)
order(o) = o == 1 ? 'in order' : o == 2 ? 'falling' : 'shuffled'
most_to_rust = 0.9
most_to_c = 1.5
set multiplot layout 1,3
set xtics (64, 128, 256, 512)
set xrange [56:585]
set xlabel 'requests of the shift'
set grid
set logscale xy
set yrange [*:*]
set ytics (0.02, 0.05, 0.1, 0.2, 0.5, 1, 2, 5)
set ylabel 'microseconds a request'
set key below
set bmargin 10
do for [k = 0:1] {
    set title (k == 0 ? 'without settlements' : 'with settlements')
    plot for [o = 1:3] for [s = 1:3] data index 3 * k + o - 1 using 1:(column(s + 1)) \
        with linespoints lc s pt 2 * o + 3 dt o title side(s).', '.order(o)
}
unset logscale y
set ytics 0.2
set title 'a due step in a pattern'
set ylabel 'proved to each peer'
set yrange [0:*]
plot data index 6 using 1:5 with linespoints lc 2 pt 5 title 'to Rust', most_to_rust with lines lc 2 dt 3 title 'at most, to Rust', \
     data index 6 using 1:6 with linespoints lc 3 pt 7 title 'to C', most_to_c with lines lc 3 dt 3 title 'at most, to C'
unset multiplot
