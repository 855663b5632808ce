# hall.gp: draws the acceptance sheet's plot from the readings that hall.c writes every four seconds. ./hall calls it as
#   gnuplot -e "readings='FILE.csv'; svg='FILE.svg'" examples/hall.gp
# Above: this core, in milliseconds. Below: the slipping core, in seconds, as it leaves the upper scale within the first of them.

set datafile separator comma
halls = sprintf("< awk -F, 'NR > 1 && $2 != \"Slipping core\"' '%s'", readings)
slipping(basis) = sprintf("< awk -F, '$2 == \"Slipping core\" && $3 ~ /%s/' '%s'", basis, readings)
# What is continued begins where counting ended, with the last reading that was counted.
dashed = sprintf("< awk -F, '$2 == \"Slipping core\" && $3 == \"counted\" { last = $0 } " \
    . "$3 == \"continued\" { if (!begun++) print last; print }' '%s'", readings)
minutes = 1; picture = 9; sound = 10; lip = 11
continued = int(system(sprintf("grep -c ,continued, '%s'", readings)))

stats slipping(".") using minutes:sound nooutput
last = STATS_max_x
behind = STATS_max_y / 1000
stats halls using (abs(column(picture)) > abs(column(sound)) ? abs(column(picture)) : abs(column(sound))) nooutput
worst = STATS_max
high = worst < 30 ? 30 : 1.1 * worst

ink = "#222222"; grey = "#6b6b6b"; pale = "#e4f2e8"; green = "#1b7f3b"; red = "#c0392b"

set terminal svg size 960,780 font "DejaVu Sans,Helvetica,Arial,sans-serif,14" background "#ffffff"
set output svg
set multiplot

set border 3 linecolor rgb grey
set tics nomirror out textcolor rgb ink
set xrange [0:last]
set lmargin at screen 0.12
set rmargin at screen 0.96
set key Left reverse samplen 2.5 textcolor rgb ink font ",12"
set label 1 "Lip delay against recital time" at screen 0.12,0.957 font ",22" textcolor rgb ink
set label 2 "Acceptance sheet: pictures at 50 fields a second, sound in blocks of 1,024 samples at 48,000 a second, true time by the crystal" \
    at screen 0.12,0.922 font ",12" textcolor rgb grey

# This core. The lines of all halls lie on one another, so they are drawn from thick to thin.
set tmargin at screen 0.83
set bmargin at screen 0.51
set label 3 sprintf("This core, in every hall: %s", worst < 0.05 ? "no delay" : sprintf("at most %.1f ms", worst)) \
    at graph 0,1.08 font ",16" textcolor rgb (worst < 20 ? green : red)
set ylabel "behind the true time (ms)" textcolor rgb ink
set yrange [-high:high]
set format x ""
set key at graph 0.99,0.17 right bottom vertical
set object 1 rectangle from graph 0,first -20 to graph 1,first 20 fillcolor rgb pale fillstyle solid noborder behind
if (worst < 30) set label 4 "accepted: pictures within a field (20 ms),\nsound within an audio block (21.3 ms)" \
    at graph 0.01,first -13 font ",12" textcolor rgb grey
plot halls using minutes:picture with lines linewidth 8 linecolor rgb "#a9d8b8" title "pictures", \
     halls using minutes:sound with lines linewidth 4 linecolor rgb "#4fae6f" title "sound", \
     halls using minutes:lip with lines linewidth 1.5 linecolor rgb ink title "lip delay: pictures less sound"

# The slipping core.
unset label 1; unset label 2; unset label 4; unset object 1
set tmargin at screen 0.40
set bmargin at screen 0.10
set label 3 sprintf("For contrast, a core that drops each step's left-over cycles: %.1f s behind after %g min", behind, last) textcolor rgb red
set ylabel "behind the true time (s)"
set xlabel "recital time (min)" textcolor rgb ink
set format x "%g"
set yrange [0 : behind > 0.01 ? 1.1 * behind : 1]
set key at graph 0.01,0.99 left top vertical maxrows 3
plot slipping("counted") using minutes:(column(picture) / 1000) with lines linewidth 8 linecolor rgb "#f0b7b0" title "pictures", \
     slipping("counted") using minutes:(column(sound) / 1000) with lines linewidth 2 linecolor rgb red title "sound: both timers slip alike", \
     (continued ? dashed : slipping("counted")) using minutes:(column(sound) / 1000) with lines linewidth 2 dashtype 2 linecolor rgb red \
         title (continued ? "both, continued in a straight line" : "")
unset multiplot
